# crates/blocks/src/lib.rt
/^fn first_stays/,/^}/s/stays(t, z, x\.first)/x.first.number <= z/
