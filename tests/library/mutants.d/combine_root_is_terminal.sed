# crates/combiner/src/lib.rt
/^fn enter/,/^}/s/^        number: block\.number,/        number: 0,/
