# crates/combiner/src/lib.rt
/^fn enter/,/^}/s/^    if !l\.whole {/    if false {/
