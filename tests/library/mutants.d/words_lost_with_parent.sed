# crates/work_table/src/lib.rt
/^fn counted/,/^}/s/^        parents: count_of(x\.parents, more),/        parents: count_of(x.parents, more), admits: 0,/
