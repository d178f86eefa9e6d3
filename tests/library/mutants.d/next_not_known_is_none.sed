# crates/finder/src/lib.rt
s/^        None if r.run.covered == 1u64 << n/        None if r.run.covered <= 1u64 << n/
