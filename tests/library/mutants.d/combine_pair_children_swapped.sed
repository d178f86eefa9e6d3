# crates/blocks/src/lib.rt
/^fn pair_record/,/^}/s/record_as(i, p\.first\.number, e, /record_as(i, e, p.first.number, /
