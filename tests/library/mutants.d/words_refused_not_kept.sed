# crates/node_records/src/lib.rt
s/^        refuses: u32::from(some_below(x, a, b, true)),/        refuses: u32::from(some_below(x, a, b, false)),/
