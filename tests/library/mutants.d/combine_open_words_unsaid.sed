# crates/blocks/src/lib.rt
/^fn put_worded/,/^}/s/put_record(t, k, y)/put_record(t, k, x)/
