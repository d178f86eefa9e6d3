# crates/unique_table/src/lib.rt
/^pub fn find/,/^}/s/search_from(t, z, get_record/search_from(t, if z < 1 { z } else { 1 }, get_record/
