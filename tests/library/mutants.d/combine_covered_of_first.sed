# crates/combiner/src/lib.rt
/^fn both_checked/,/^}/s/second: y\.covered,/second: x.covered,/
