# crates/edges/src/lib.rt
/^fn is_settled/,/^}/s/!opens_second(op, a)/true/
