# crates/covering/src/lib.rt
/^pub fn covered/,/^}/s/return 1u64 << n;/return (1u64 << n) - 1;/
