# crates/combiner/src/lib.rt
/^pub fn combine/,/^}/s/^    clear_all(t2);/    \/\/ clear_all(t2);/
