# crates/operators/src/lib.rt
/^fn result/,/^}/s/(true, false) => r10/(true, false) => r01/
