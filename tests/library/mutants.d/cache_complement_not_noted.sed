# crates/operation_cache/src/lib.rt
/^pub fn note/,/^}/s/complement: h\.complement,/complement: false,/
