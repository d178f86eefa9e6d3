# crates/pending_text/src/lib.rt
/^pub fn send(/,/^}/s/^    let room = out\.len() - from;/    let room = (out.len() - from).saturating_sub(1);/
