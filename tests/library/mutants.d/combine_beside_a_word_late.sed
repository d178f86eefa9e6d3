# crates/covering/src/lib.rt
/^fn load_beside/,/^}/s/load_from(n, s, t, w, yeses)/load_from(n, s, t, w + 1, yeses)/
