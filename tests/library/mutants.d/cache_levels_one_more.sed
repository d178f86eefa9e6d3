# crates/operation_cache/src/lib.rt
/^pub fn recall(/,/^}/s/level_of(t, e\.number)\.saturating_sub(i);/(level_of(t, e.number) + 1).saturating_sub(i);/
