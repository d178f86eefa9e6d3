# crates/operation_cache/src/lib.rt
/^pub fn recall(/,/^}/s/skipped, e\.complement, false)/0, e.complement, false)/
