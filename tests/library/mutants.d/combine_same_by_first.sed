# crates/edges/src/lib.rt
/^pub fn both_pass/,/^}/s/\&\& skips(y\.edge\.number, i, s\.level)/\&\& skips(x.edge.number, i, r.level)/
