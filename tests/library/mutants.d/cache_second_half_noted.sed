# crates/applier/src/lib.rt
/^fn walk/,/^}/s/note(cache, s, key, pass, both);/note(cache, s, key, pass, b);/
