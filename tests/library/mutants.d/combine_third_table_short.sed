# crates/combiner/src/lib.rt
/^pub fn combine/,/^}/s/ t\.len() < TABLE_LIMIT/ t.len() < TABLE_LIMIT - 1/
