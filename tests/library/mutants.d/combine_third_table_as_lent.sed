# crates/combiner/src/lib.rt
/^    let l = load_both(/{
n
s/^    clear_all(t);/    \/\/ clear_all(t);/
}
