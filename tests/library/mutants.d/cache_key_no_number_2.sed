# crates/operation_cache/src/lib.rt
/^pub fn recall(/,/^}/s/^    if e\.key != k {/    if e.key != (Key { number2: e.key.number2, ..k }) {/
