# crates/writer/src/lib.rt
s/^    if v.len() != (1usize << n) \/ 8 {/    if v.len() < (1usize << n) \/ 8 {/
