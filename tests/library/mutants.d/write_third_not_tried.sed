# crates/unique_table/src/lib.rt
/^fn free/,/^}/s/^    number(after_of::<true>(get_record(t, y)))/    None/
