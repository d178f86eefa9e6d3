# crates/text_walk/src/lib.rt
/^fn texts/,/^}/s/block: a\.first,/block: a.second,/
