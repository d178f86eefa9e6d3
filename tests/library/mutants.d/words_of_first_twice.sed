# crates/work_table/src/lib.rt
s/with_words(x, get(t, z, x.first), get(t, z, x.second))/with_words(x, get(t, z, x.first), get(t, z, x.first))/
