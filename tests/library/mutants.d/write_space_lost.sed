# crates/meeting/src/lib.rt
/^fn is_spaced/,/^}/s/a\.skipped == 0/!a.wrote/
