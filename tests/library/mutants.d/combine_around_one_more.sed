# crates/operands/src/lib.rt
/^fn settle/,/^}/s/b\.deep == i as usize/b.deep == i as usize + 1/
