# crates/checker/src/lib.rt
/^pub fn check(/,/^}/s/^    clear_all(t);/    record_tables::clear_records(t, TABLE_LIMIT);/
