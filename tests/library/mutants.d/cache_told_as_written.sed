# crates/operation_cache/src/lib.rt
/^pub fn recall(/,/^}/s/skipped, e\.complement, false)/skipped, e.complement, true)/
