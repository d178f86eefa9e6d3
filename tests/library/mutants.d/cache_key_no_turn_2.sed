# crates/operation_cache/src/lib.rt
/^pub fn recall(/,/^}/s/^    if e\.key != k {/    if e.key != (Key { complement2: e.key.complement2, ..k }) {/
