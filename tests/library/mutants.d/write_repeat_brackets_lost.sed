# crates/writer/src/lib.rt
/^fn walk/,/^}/s/^            temporary: false,/            temporary: false, skipped: 0,/
