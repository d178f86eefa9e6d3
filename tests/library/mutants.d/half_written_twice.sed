# crates/filler/src/lib.rt
s/second_edge(x, i, e), w + half);/second_edge(x, i, e), w);/
