# crates/text_walk/src/lib.rt
/^fn texts/,/^}/s/block: a\.second,/block: a.first,/
