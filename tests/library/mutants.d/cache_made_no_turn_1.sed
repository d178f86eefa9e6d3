# crates/operation_cache/src/lib.rt
/^pub fn key_of/,/^}/s/complement1: x\.complement,/complement1: false,/
