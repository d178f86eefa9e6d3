# crates/blocks/src/lib.rt
/^fn put_spine/,/^}/s/for j in 0\.\.d {/for j in 0..d.saturating_sub(1) {/
