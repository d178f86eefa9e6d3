# crates/finder/src/lib.rt
s/^    let word = word_at(t, o, n, r, w, !v);/    let word = word_at(t, o, n, r, w, !v).or(Some(r.run.covered));/
