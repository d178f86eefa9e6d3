# crates/work_table/src/lib.rt
s/^    count(t, z, x.second, true);/    count(t, z, x.second, false);/
