# crates/covering/src/lib.rt
/^fn reach/,/^}/s/long, true)/long, false)/
