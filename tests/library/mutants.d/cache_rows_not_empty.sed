# crates/combiner/src/lib.rt
/^fn run/,/^}/s/^    let mut m = \[None; CACHE_ENTRIES\];/    let mut m = [Some(operation_cache::Entry { key: operation_cache::Key { number1: 1, stamp1: 1, number2: 1, stamp2: 1, complement1: true, complement2: true }, number: 1, stamp: 1, complement: false }); CACHE_ENTRIES];/
