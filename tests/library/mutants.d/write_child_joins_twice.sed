# crates/unique_table/src/lib.rt
/^fn orphans/,/^}/s/^    if x == y {/    if x == 0 {/
