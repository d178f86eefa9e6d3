# crates/covering/src/lib.rt
/^fn reach/,/^}/s/(false, false) => long,/(false, false) => short,/
