# crates/finder/src/lib.rt
s/^    Some(half + start_word(t, z, m - 1, i + 1, g)?)/    Some(half + least_word(t, z, m - 1, i + 1, g))/
