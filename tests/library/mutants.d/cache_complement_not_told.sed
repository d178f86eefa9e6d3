# crates/operation_cache/src/lib.rt
/^pub fn recall(/,/^}/s/let e = (\*c\.get(p)?)?;/let e = Entry { complement: false, ..(*c.get(p)?)? };/
