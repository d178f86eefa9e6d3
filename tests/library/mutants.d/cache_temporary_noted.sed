# crates/operation_cache/src/lib.rt
/^pub fn note/,/^}/s/ || pass || h\.temporary {/ || pass {/
