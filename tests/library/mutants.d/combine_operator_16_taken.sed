# crates/combiner/src/lib.rt
/^pub fn combine/,/^}/s/^    if 15 < op {/    if 16 < op {/
