# crates/operation_cache/src/lib.rt
/^pub fn recall(/,/^}/s/^    if e\.key != k {/    if e.key != (Key { complement1: e.key.complement1, ..k }) {/
