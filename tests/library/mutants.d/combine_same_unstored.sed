# crates/applier/src/lib.rt
/^fn walk/,/^}/s/^    if !h\.temporary \&\& pass {/    if pass {/
