# crates/finder/src/lib.rt
s/^    let r = word_from(t, z, m - 1, i + 1, first_edge(x, i, e), w);/    let r = word_from(t, z, m - 1, i + 1, first_edge(x, i, e), w).or(Some(half));/
