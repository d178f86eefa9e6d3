# crates/operation_cache/src/lib.rt
/^pub fn key_of/,/^}/s/stamp2: h,/stamp2: 0,/
