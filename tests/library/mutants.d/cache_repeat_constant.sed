# crates/applier/src/lib.rt
/^fn walk/,/^}/s/^    if !h\.temporary \&\& pass {/    if !h.temporary \&\& (h.number == 0 || pass) {/
