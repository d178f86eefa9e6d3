# crates/covering/src/lib.rt
/^fn reach/,/^}/s/long, false)/long, true)/
