# crates/edges/src/lib.rt
/^pub fn is_fixed/,/^}/s/!opens_first(op, b)/true/
