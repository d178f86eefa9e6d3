# crates/covering/src/lib.rt
/^pub fn covered/,/^}/s/^    if ignores_first(op) && ignores_second(op) {/    if false {/
