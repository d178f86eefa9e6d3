# crates/writer/src/lib.rt
/^fn walk/,/^}/s/^    let waiting = push_tilde(to.waiting, q, tilde);/    let waiting = push_tilde(to.waiting, q, tilde \&\& !h.wrote);/
