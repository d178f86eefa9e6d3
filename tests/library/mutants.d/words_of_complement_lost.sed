# crates/node_records/src/lib.rt
/^pub fn some_yes/,/^}/s/^        x\.refuses != 0/        x.admits != 0/
