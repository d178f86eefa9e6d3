# crates/reader/src/lib.rt
/^fn barred/,/^}/s/(is_stale(t, r\.size, r\.pair\.first) /(get(t, r.size, r.pair.first.number).stamp < r.pair.first.stamp /
