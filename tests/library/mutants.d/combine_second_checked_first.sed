# crates/combiner/src/lib.rt
/^pub fn combine/,/^}/s/both_checked(l\.first\.loaded\.checking, l\.second\.loaded\.checking)/both_checked(l.second.loaded.checking, l.first.loaded.checking)/
