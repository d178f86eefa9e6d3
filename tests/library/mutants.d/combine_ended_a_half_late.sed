# crates/text_walk/src/lib.rt
/^fn texts/,/^}/s/^    if k\.covered <= mid {/    if k.covered < mid {/
