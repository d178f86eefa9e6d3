# crates/text_walk/src/lib.rt
/^fn finish/,/^}/s/^    if k\.covered == 1u64 << k\.n {/    if k.covered <= 1u64 << k.n {/
