# crates/applier/src/lib.rt
/^fn walk/,/^}/s/record_at(t2, y\.size, y\.edge\.number)/record_at(t2, x.size, y.edge.number)/
