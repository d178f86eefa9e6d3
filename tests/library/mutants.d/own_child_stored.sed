# crates/reader/src/lib.rt
/^fn is_bad/,/^}/s/r\.pair\.first\.number == k/r.pair.first.number == 0/
