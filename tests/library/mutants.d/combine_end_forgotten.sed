# crates/text_walk/src/lib.rt
/^fn texts/,/^}/s/return Applied { ended: true, \.\.a };/return a;/
