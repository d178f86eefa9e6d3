# crates/node_records/src/lib.rt
s/second_child(x, e\.complement)/Edge { number: x.second, complement: e.complement }/
