# crates/writer/src/lib.rt
/^    let x = stream(/,/^}/s/^    clear_all(t);/    record_tables::clear_records(t, TABLE_LIMIT);/
