# crates/reader/src/lib.rt
s/^    if x.level != d + 1 {/    if x.level > d + 1 {/
