# crates/writer/src/lib.rt
s/^    let m = push_tilde(to.waiting, 0, truth(v, 0));/    let m = push_tilde(to.waiting, 0, false);/
