# crates/operation_cache/src/lib.rt
/^pub fn recall(/,/^}/s/^    if stamp_of(t, e\.number) != e\.stamp {/    if stamp_of(t, e.number) < e.stamp {/
