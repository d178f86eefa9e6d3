# crates/node_records/src/lib.rt
/^pub fn skips/,/^}/s/k == 0 || i < l/k == 0 || i <= l/
