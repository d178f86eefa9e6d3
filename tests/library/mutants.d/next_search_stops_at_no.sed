# crates/reader/src/lib.rt
/^fn stop_after/,/^}/s/^    if some_yes(get(t, r.size, e.number), e) {/    if !some_yes(get(t, r.size, e.number), e) {/
