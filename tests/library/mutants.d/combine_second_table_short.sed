# crates/combiner/src/lib.rt
/^pub fn combine/,/^}/s/t2\.len() < TABLE_LIMIT/t2.len() < TABLE_LIMIT - 1/
