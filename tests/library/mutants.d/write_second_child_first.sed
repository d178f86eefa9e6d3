# crates/unique_table/src/lib.rt
/^fn release/,/^}/s/^    orphans(t, f, x.first, x.second)/    orphans(t, f, x.second, x.first)/
