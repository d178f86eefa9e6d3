# crates/combiner/src/lib.rt
/^fn run/,/^}/s/l\.first\.loaded, ignores_first(k\.op)/l.first.loaded, ignores_second(k.op)/
