# crates/covering/src/lib.rt
/^pub fn covered/,/^}/s/^    if first <= second {/    if second <= first {/
