# crates/writer_numbers/src/lib.rt
/^pub fn is_free/,/^}/s/a != x && b != x/a != x/
