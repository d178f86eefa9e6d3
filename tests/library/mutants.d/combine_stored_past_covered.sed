# crates/text_walk/src/lib.rt
/^fn at_edges/,/^}/s/at + (1u64 << d) <=/at <=/
