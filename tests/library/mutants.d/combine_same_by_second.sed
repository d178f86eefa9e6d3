# crates/edges/src/lib.rt
/^pub fn both_pass/,/^}/s/skips(x\.edge\.number, i, r\.level) \&\&/skips(y.edge.number, i, s.level) \&\&/
