# crates/combiner/src/lib.rt
/^pub fn combine/,/^}/s/^    if OPTION_LIMIT < n {/    if 33 < n {/
