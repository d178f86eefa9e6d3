# crates/reader/src/lib.rt
/^fn stop_after/,/^}/s/^        r\.covered$/        r.covered + 1/
