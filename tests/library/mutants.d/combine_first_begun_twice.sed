# crates/combiner/src/lib.rt
/^fn run/,/^}/s/enter(k\.n, &mut b, \(.*\));/{ let mut s = Stream { bytes: x, table: \&mut *b.table, opens: \&mut *b.opens }; enter(k.n, \&mut s, \1) };/
