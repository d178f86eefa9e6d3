# crates/combiner/src/lib.rt
/^fn run/,/^}/s/enter(k\.n, &mut b, l\.second\.loaded,/enter(k.n, \&mut b, l.first.loaded,/
