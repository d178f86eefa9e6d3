# crates/blocks/src/lib.rt
/^fn pair_record/,/^}/s/u32::from(p\.complement)/0/
