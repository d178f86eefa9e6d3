# crates/operands/src/lib.rt
/^pub fn first_value/,/^}/s/None => f\.block\.complement,/None => TERMINAL.complement,/
