# crates/operation_cache/src/lib.rt
/^pub fn recall(/,/^}/s/numbered(e\.number, e\.stamp,/numbered(e.number, 0,/
