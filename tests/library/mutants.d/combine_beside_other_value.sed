# crates/covering/src/lib.rt
/^fn load_beside/,/^}/s/load_from(n, s, t, w, q.yes)/load_from(n, s, t, w, q.no)/
