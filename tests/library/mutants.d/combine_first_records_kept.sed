# crates/combiner/src/lib.rt
/^pub fn combine/,/^}/s/^    clear_all(t1);/    \/\/ clear_all(t1);/
