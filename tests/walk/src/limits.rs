//! The limits of document 01, each named once.

/// "The option count n is 0 to 32" (Words and options).
pub const MOST_OPTIONS: u64 = 32;

/// "At most 32 nodes are open at one time" (The stream).
pub const MOST_OPEN: usize = 32;

/// "causes 3, 4 and 8 now say 768", "a size of 768 is taken while 769 is not" (document 02, R-2).
pub const MOST_SIZE: u64 = 768;

/// "a work table under" so many "records" (Turned down, cause 4): as many as the largest size.
pub const LEAST_RECORDS: usize = MOST_SIZE as usize;

/// "Truth tables: n from 3 to 16" (The written stream).
pub const LEAST_TRUTH_OPTIONS: u64 = 3;
pub const MOST_TRUTH_OPTIONS: u64 = 16;

/// "The operator is 0 to 15" (The written stream).
pub const MOST_OPERATOR: u64 = 15;

/// "standard input, at most 65,536 bytes" and "The output lent is 65,536 bytes" (Program).
pub const MOST_JOB: usize = 65_536;
pub const JOIN_OUTPUT: usize = 65_536;
