# crates/finder/src/lib.rt
s/^        return Some(half + word_from(t, z, m - 1, i + 1, g, w - half)?);/        return word_from(t, z, m - 1, i + 1, g, w - half);/
