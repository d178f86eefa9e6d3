# crates/operation_cache/src/lib.rt
/^pub fn recall(/,/^}/s/\.saturating_sub(i);/.saturating_sub(i + 1);/
