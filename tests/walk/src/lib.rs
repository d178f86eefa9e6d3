//! Document 01, "Option rules as decision streams", and the requests of document 02 that are in
//! force, written a second time and plainly.
//!
//! Everything here follows the sentences of the papers one by one and prefers being obviously
//! right to being quick: a stream is parsed into a tree, each word is decided by its own walk
//! down that tree, and a stream is written by walking all words from 0 up. It shares nothing
//! with the code that it is compared with but the papers.
//!
//! The modules stand in the order of document 01:
//! - `limits`: the numbers that bound everything;
//! - `refusal`: causes with stream and byte ("Turned down");
//! - `reader`: bytes to elements ("The stream", "A stream that stops early");
//! - `table`: stored nodes, what is kept, what was given out again ("The stream");
//! - `reading`: a stream read with an option count, causes 7 to 13 ("The stream");
//! - `deciding`: one word, one block, a truth table ("A stream that stops early");
//! - `next`: the next admitted word (document 02, R-1);
//! - `writing`: rules 1 to 5 and the queue ("The written stream");
//! - `settled`: settled words, the covered count of a run (document 02, R-3);
//! - `run`: released text, clipping, ending ("The written stream");
//! - `cached`, over the functions of `diagrams`: the text of a run with no walk over all words;
//! - `calls`: each call with its refusals and every lent slice ("Turned down");
//! - `join`: the program ("Program").
//!
//! The rest makes test cases: `random`, `functions`, `shapes`, `dense`, `case`, `generate`.

pub mod cached;
pub mod calls;
pub mod case;
pub mod deciding;
pub mod dense;
pub mod diagrams;
pub mod functions;
pub mod generate;
pub mod join;
pub mod limits;
pub mod next;
pub mod random;
pub mod reader;
pub mod reading;
pub mod refusal;
pub mod run;
pub mod settled;
pub mod shapes;
pub mod table;
pub mod writing;
