# crates/operation_cache/src/lib.rt
/^pub fn key_of/,/^}/s/complement2: y\.complement,/complement2: x.complement,/
