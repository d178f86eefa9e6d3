# crates/pending_text/src/lib.rt
s/^        full: room < c,/        full: room <= c,/
