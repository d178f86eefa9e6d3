# crates/combiner/src/lib.rt
/^fn both_checked/,/^}/s/first: x\.covered,/first: y.covered,/
