# crates/combiner/src/lib.rt
/^fn enter/,/^}/s/^        complement: block\.complement,/        complement: false,/
