# crates/reader/src/lib.rt
s/^        complement: r\.context == Context::Lead || r\.complement,/        complement: r.complement,/
