# crates/writer/src/lib.rt
/^    let x = stream(/,/^}/s/^    clear_all(t);/    let z = t.len() - 1; record_tables::clear_records(t, z);/
