# crates/operation_cache/src/lib.rt
/^pub fn recall(/,/^}/s/^    if e\.key != k {/    if e.key != (Key { stamp1: e.key.stamp1, ..k }) {/
