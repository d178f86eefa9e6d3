# crates/finder/src/lib.rt
/^pub fn find_next/,/^}/s/^    if 1u64 << n <= w {/    if 1u64 << n < w {/
