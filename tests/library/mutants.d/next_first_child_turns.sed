# crates/reader/src/lib.rt
/^pub fn complements/,/^}/s/^    e\.second \&\& e\.complement/    !e.second || e.complement/
