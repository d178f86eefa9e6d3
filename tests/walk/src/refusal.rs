//! Why a call is turned down (document 01, "Turned down").

/// A fault in one stream: its cause (7 to 13) and its place, counted from 0.
#[derive(Clone, Copy, Debug, PartialEq, Eq)]
pub struct Fault {
    pub cause: u64,
    pub byte: usize,
}

/// What a refused call returns: cause, stream, byte.
#[derive(Clone, Copy, Debug, PartialEq, Eq)]
pub struct Refusal {
    pub cause: u64,
    pub stream: u64,
    pub byte: usize,
}

impl Refusal {
    /// Causes 1 to 6 name "stream 0, byte 0".
    pub fn of_call(cause: u64) -> Refusal {
        Refusal {
            cause,
            stream: 0,
            byte: 0,
        }
    }

    /// Causes 7 to 13 name the stream and the place in it.
    pub fn of_stream(stream: u64, fault: Fault) -> Refusal {
        Refusal {
            cause: fault.cause,
            stream,
            byte: fault.byte,
        }
    }
}
