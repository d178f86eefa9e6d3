# crates/combiner/src/lib.rt
/^pub fn combine/,/^}/s/^    if TABLE_LIMIT < size as usize {/    if TABLE_LIMIT + 1 < size as usize {/
