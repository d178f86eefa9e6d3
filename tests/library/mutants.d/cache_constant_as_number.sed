# crates/operation_cache/src/lib.rt
/^pub fn recall(/,/^}/s/Some(constant(e\.complement))/Some(numbered(0, 0, 1, e.complement, false))/
