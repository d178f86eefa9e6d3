//! One case: a call with its arguments, and the line that stands for it.
//!
//! | line | call |
//! |---|---|
//! | `check N RECORDS "STREAM"` | `rule_check` |
//! | `decide N RECORDS WORD "STREAM"` | `rule_decide` |
//! | `next N RECORDS WORD "STREAM"` | `rule_next` |
//! | `fill N RECORDS LENGTH "STREAM"` | `rule_fill` with a truth table of LENGTH bytes |
//! | `reader "STREAM"` | `rule_begin`, then `rule_step` to its stop |
//! | `write N RECORDS SIZE LENGTH "TRUTHS"` | `rule_write` with an output of LENGTH bytes |
//! | `combine N RECORDS RECORDS RECORDS OP SIZE LENGTH "STREAM" "STREAM"` | `rule_combine` with an output of LENGTH bytes |
//!
//! RECORDS is the length of a work table. In STREAM a byte that is no printable character, a
//! space, a quote or a backslash stands as `\n` or `\xNN`. TRUTHS are the bytes of the truth table,
//! two hexadecimal digits each. What the lent slices hold before the call follows from the line.

pub const NAMES: [&str; 7] = [
    "check", "decide", "fill", "reader", "write", "combine", "next",
];

#[derive(Clone, Debug, PartialEq, Eq)]
pub enum Call {
    Check,
    Decide { word: u64 },
    Fill { truths: usize },
    Reader,
    Write { size: u32, output: usize },
    Combine(Combine),
    Next { word: u64 },
}

/// The arguments of `rule_combine` beside those that every case has.
#[derive(Clone, Debug, PartialEq, Eq)]
pub struct Combine {
    pub op: u32,
    pub size: u32,
    pub output: usize,
    /// The records of the second and of the third work table.
    pub others: [usize; 2],
    pub second: Vec<u8>,
}

#[derive(Clone, Debug, PartialEq, Eq)]
pub struct Case {
    pub call: Call,
    pub n: u32,
    /// The records of the work table, of combining those of the first.
    pub records: usize,
    /// What is lent to be read: the stream, of combining the first, of `rule_write` the truth table.
    pub stream: Vec<u8>,
}

impl Case {
    /// The number of the call, an index into `NAMES`.
    pub fn number(&self) -> usize {
        match self.call {
            Call::Check => 0,
            Call::Decide { .. } => 1,
            Call::Fill { .. } => 2,
            Call::Reader => 3,
            Call::Write { .. } => 4,
            Call::Combine(_) => 5,
            Call::Next { .. } => 6,
        }
    }

    /// The length of the truth table that is lent to be filled.
    pub fn truths(&self) -> usize {
        match self.call {
            Call::Fill { truths } => truths,
            _ => 0,
        }
    }

    /// The length of the output that is lent.
    pub fn output(&self) -> usize {
        match &self.call {
            Call::Write { output, .. } => *output,
            Call::Combine(combine) => combine.output,
            _ => 0,
        }
    }

    /// The second stream that is lent.
    pub fn second(&self) -> &[u8] {
        match &self.call {
            Call::Combine(combine) => &combine.second,
            _ => &[],
        }
    }

    /// The records of the two work tables for reading that are lent, and those of the one for writing.
    pub fn tables(&self) -> [usize; 3] {
        match &self.call {
            Call::Write { .. } => [0, 0, self.records],
            Call::Combine(combine) => [self.records, combine.others[0], combine.others[1]],
            _ => [self.records, 0, 0],
        }
    }

    /// A number that the case alone decides (FNV-1a over its parts).
    pub fn hash(&self) -> u64 {
        let mut numbers = vec![self.number() as u64, self.n.into(), self.records as u64];
        match &self.call {
            Call::Decide { word } | Call::Next { word } => numbers.push(*word),
            Call::Write { size, output } => numbers.push(u64::from(*size) << 32 | *output as u64),
            Call::Combine(combine) => numbers.extend(combine.numbers()),
            _ => numbers.push(self.truths() as u64),
        }
        let bytes = numbers.iter().flat_map(|number| number.to_le_bytes());
        let step = |hash: u64, byte: u8| (hash ^ u64::from(byte)).wrapping_mul(0x100_0000_01b3);
        bytes
            .chain(self.stream.iter().copied())
            .chain(self.second().iter().copied())
            .fold(0xcbf2_9ce4_8422_2325, step)
    }

    /// The case as a line.
    pub fn line(&self) -> String {
        let (name, n, records) = (NAMES[self.number()], self.n, self.records);
        let stream = match self.call {
            Call::Write { .. } => hexadecimal(&self.stream),
            _ => escaped(&self.stream),
        };
        match &self.call {
            Call::Check => format!("{name} {n} {records} {stream}"),
            Call::Decide { word } | Call::Next { word } => {
                format!("{name} {n} {records} {word} {stream}")
            }
            Call::Fill { truths } => format!("{name} {n} {records} {truths} {stream}"),
            Call::Reader => format!("{name} {stream}"),
            Call::Write { size, output } => {
                format!("{name} {n} {records} {size} {output} {stream}")
            }
            Call::Combine(combine) => {
                let [two, three, op, size, output] = combine.numbers();
                let second = escaped(&combine.second);
                format!("{name} {n} {records} {two} {three} {op} {size} {output} {stream} {second}")
            }
        }
    }

    /// The case of a line.
    pub fn parse(line: &str) -> Option<Case> {
        let words: Vec<&str> = line.split_whitespace().collect();
        let (call, n, records, stream) = match words[..] {
            ["check", n, records, stream] => (Call::Check, n, records, stream),
            ["decide", n, records, word, stream] => {
                let word = word.parse().ok()?;
                (Call::Decide { word }, n, records, stream)
            }
            ["next", n, records, word, stream] => {
                let word = word.parse().ok()?;
                (Call::Next { word }, n, records, stream)
            }
            ["fill", n, records, length, stream] => {
                let truths = length.parse().ok()?;
                (Call::Fill { truths }, n, records, stream)
            }
            ["reader", stream] => (Call::Reader, "0", "0", stream),
            ["write", n, records, size, length, stream] => {
                let (size, output) = (size.parse().ok()?, length.parse().ok()?);
                (Call::Write { size, output }, n, records, stream)
            }
            ["combine", n, records, two, three, op, size, length, stream, second] => {
                let combine = Combine {
                    op: op.parse().ok()?,
                    size: size.parse().ok()?,
                    output: length.parse().ok()?,
                    others: [two.parse().ok()?, three.parse().ok()?],
                    second: unescaped(second)?,
                };
                (Call::Combine(combine), n, records, stream)
            }
            _ => return None,
        };
        Some(Case {
            stream: match call {
                Call::Write { .. } => bytes_of(stream)?,
                _ => unescaped(stream)?,
            },
            call,
            n: n.parse().ok()?,
            records: records.parse().ok()?,
        })
    }
}

impl Combine {
    /// The records of the second and the third work table, operator, size, output.
    fn numbers(&self) -> [u64; 5] {
        let [two, three] = self.others.map(|records| records as u64);
        let (op, size) = (self.op.into(), self.size.into());
        [two, three, op, size, self.output as u64]
    }
}

fn hexadecimal(bytes: &[u8]) -> String {
    let shown = |byte: &u8| format!("{byte:02x}");
    format!("\"{}\"", bytes.iter().map(shown).collect::<String>())
}

fn bytes_of(text: &str) -> Option<Vec<u8>> {
    let digits = text.strip_prefix('"')?.strip_suffix('"')?;
    let starts = (0..digits.len()).step_by(2);
    let byte = |at: usize| u8::from_str_radix(digits.get(at..at + 2)?, 16).ok();
    starts.map(byte).collect()
}

fn escaped(bytes: &[u8]) -> String {
    let shown = |&byte: &u8| match byte {
        b'\n' => "\\n".to_string(),
        b'"' | b'\\' | 0..=b' ' | 0x7f.. => format!("\\x{byte:02x}"),
        _ => char::from(byte).to_string(),
    };
    format!("\"{}\"", bytes.iter().map(shown).collect::<String>())
}

fn unescaped(text: &str) -> Option<Vec<u8>> {
    let mut rest = text.strip_prefix('"')?.strip_suffix('"')?;
    let mut bytes = Vec::new();
    while let Some(first) = rest.bytes().next() {
        let used;
        if let Some(code) = rest.strip_prefix("\\x") {
            bytes.push(u8::from_str_radix(code.get(..2)?, 16).ok()?);
            used = 4;
        } else if rest.starts_with("\\n") {
            bytes.push(b'\n');
            used = 2;
        } else {
            bytes.push(first);
            used = 1;
        }
        rest = rest.get(used..)?;
    }
    Some(bytes)
}
