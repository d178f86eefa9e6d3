# crates/applier/src/lib.rt
/^fn walk/,/^}/s/key_of(x\.edge, r1\.stamp, y\.edge, r2\.stamp)/key_of(x.edge, r1.stamp, y.edge, r1.stamp)/
