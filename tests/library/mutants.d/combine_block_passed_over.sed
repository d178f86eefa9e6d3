# crates/blocks/src/lib.rt
/^pub fn next_block/,/^}/s/read_on(n, s, t, o, c, c\.run\.covered)/read_on(n, s, t, o, c, c.run.covered + 1)/
