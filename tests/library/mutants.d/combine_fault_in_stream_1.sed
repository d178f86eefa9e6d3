# crates/combiner/src/lib.rt
/^fn both_checked/,/^}/s/stream: 2,/stream: 1,/
