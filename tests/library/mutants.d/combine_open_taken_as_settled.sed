# crates/covering/src/lib.rt
/^fn reach/,/^}/s/(true, true) => short,/(true, true) => long,/
