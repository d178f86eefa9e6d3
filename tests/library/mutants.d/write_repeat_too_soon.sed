# crates/writer/src/lib.rt
/^fn alike_bytes/,/^}/s/^    for j in 0\.\.c {/    for j in 0..c - 1 {/
