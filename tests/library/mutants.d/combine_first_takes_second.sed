# crates/edges/src/lib.rt
/^pub fn first_edge/,/^}/s/first_child(r, i, x\.edge)/second_child(r, i, x.edge)/
