# crates/blocks/src/lib.rt
/^fn stays/,/^}/s/stamp == a\.stamp/stamp != 0xffffffff/
