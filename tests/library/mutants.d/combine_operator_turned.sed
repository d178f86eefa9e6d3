# crates/operators/src/lib.rt
/^pub fn operate/,/^}/s/^        13 => result(a, b, T, F, T, T)/        13 => result(a, b, F, F, T, T)/
