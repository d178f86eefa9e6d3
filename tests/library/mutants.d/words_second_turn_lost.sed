# crates/node_records/src/lib.rt
/^fn some_below/,/^}/s/second_child(x, c)/Edge { number: x.second, complement: c }/
