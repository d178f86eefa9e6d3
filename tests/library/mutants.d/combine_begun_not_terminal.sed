# crates/blocks/src/lib.rt
/^fn last_number/,/^}/s/^    if !has_ended(q\.context) {/    if has_ended(q.context) {/
