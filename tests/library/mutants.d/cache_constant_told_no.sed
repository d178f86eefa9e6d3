# crates/operation_cache/src/lib.rt
/^pub fn recall(/,/^}/s/Some(constant(e\.complement))/Some(constant(false))/
