# crates/finder/src/lib.rt
s/^    edge_of(r, o).complement != r.run.complement/    edge_of(r, o).complement/
