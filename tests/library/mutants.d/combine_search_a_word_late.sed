# crates/covering/src/lib.rt
/^fn reach/,/^}/s/l, short, long, true)/l, short + 1, long, true)/
