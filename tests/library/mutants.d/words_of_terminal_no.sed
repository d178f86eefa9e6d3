# crates/node_records/src/lib.rt
/^pub fn some_yes/,/^}/s/^        e\.complement$/        false/
