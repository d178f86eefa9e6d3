# crates/meeting/src/lib.rt
/^fn is_stale/,/^}/s/!= a\.stamp$/< a.stamp/
