# crates/operation_cache/src/lib.rt
/^pub fn key_of/,/^}/s/number2: y\.number,/number2: x.number,/
