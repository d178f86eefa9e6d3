# crates/reader/src/lib.rt
s/^    if TABLE_LIMIT < v as usize {/    if TABLE_LIMIT + 1 < v as usize {/
