# crates/meeting/src/lib.rt
/^fn alike_number/,/^}/s/!is_stale(t, a)/!is_stale(t, b)/
