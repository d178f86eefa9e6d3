# crates/blocks/src/lib.rt
/^fn highest/,/^}/s/return k + 1;/return k;/
