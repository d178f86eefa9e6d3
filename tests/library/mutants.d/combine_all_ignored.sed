# crates/combiner/src/lib.rt
/^fn enter/,/^}/s/^    if v {/    if true {/
