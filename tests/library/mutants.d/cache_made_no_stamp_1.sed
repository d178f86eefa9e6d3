# crates/operation_cache/src/lib.rt
/^pub fn key_of/,/^}/s/stamp1: g,/stamp1: 0,/
