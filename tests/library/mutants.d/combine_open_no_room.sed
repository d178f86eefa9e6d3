# crates/blocks/src/lib.rt
/^fn root/,/^}/s/if TABLE_LIMIT < h as usize + d {/if TABLE_LIMIT < h as usize {/
