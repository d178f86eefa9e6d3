# crates/reader/src/lib.rt
/^fn parity_on/,/^}/s/^    complements(x\.low) != q/    q/
