# crates/covering/src/lib.rt
/^pub fn ignores_second/,/^}/s/ && !opens_second(op, true)//
