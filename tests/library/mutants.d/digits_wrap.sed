# crates/scanner/src/lib.rt
s/^    (v \* 10 + digit(b))\.min(4294967295)/    (v * 10 + digit(b)) % 4294967296/
