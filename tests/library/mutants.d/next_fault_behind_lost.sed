# crates/finder/src/lib.rt
/^fn found_at/,/^}/s/^        Some(f) => Err(late(f)),/        Some(f) => if v == 0 { Err(late(f)) } else { Ok(NextWord::Word(v)) },/
