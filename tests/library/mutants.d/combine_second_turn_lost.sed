# crates/edges/src/lib.rt
/^pub fn second_edge/,/^}/s/edge: second_child(r, i, x\.edge),/edge: Edge { complement: x.edge.complement, ..second_child(r, i, x.edge) },/
