# crates/covering/src/lib.rt
/^pub fn load_both/,/^}/s/load(n, y, t2)/load(n, x, t2)/
