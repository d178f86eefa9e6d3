# crates/combiner/src/lib.rt
/^pub fn combine/,/^}/s/Cause::OperatorCode/Cause::SizeToWrite/
