# crates/combiner/src/lib.rt
/^fn run/,/^}/s/l\.second\.loaded, ignores_second(k\.op)/l.second.loaded, ignores_first(k.op)/
