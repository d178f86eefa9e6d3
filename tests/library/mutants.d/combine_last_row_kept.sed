# crates/combiner/src/lib.rt
/^pub fn combine/,/^}/s/^    clear_all(t2);/    let z = t2.len() - 1; record_tables::clear_records(t2, z);/
