# crates/covering/src/lib.rt
/^pub fn ignores_first/,/^}/s/ && !opens_first(op, true)//
