# crates/edges/src/lib.rt
/^pub fn is_fixed/,/^}/s/x\.edge\.number == 0/x.edge.number <= 1/
