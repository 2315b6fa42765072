//! Safe calls into the equivalence engine for quantum gate lists.
//!
//! [`session`] and [`verdict`] are the engine's two outer calls. They are proved, for every text, store, cache and
//! output of any length, to answer as the definitions say; they ask nothing of their caller. [`judge`] is a verdict on
//! buffers of its own, read into an [`Answer`].
//!
//! ```
//! use jorehyi::{judge, Answer};
//!
//! assert_eq!(judge(b"lines\t1\nH\t0\nH\t0\n=\n", 2048), Answer::Same);
//! assert_eq!(judge(b"lines\t1\nX\t0\nZ\t0\nX\t0\n=\nZ\t0\n", 2048), Answer::Factor(65536));
//! ```
//!
//! The lent memory:
//! - `store` holds the nodes. The capacity is its bytes divided by 16, rounded down, at most 65,535. What it held
//!   before does not matter.
//! - `cache` remembers results, four words each. Its length and what it held before do not change any answer, only the
//!   time.
//! - `out` gets the answers. Bytes after those written are untouched.

mod raw;

/// The bytes of the store that one node fills.
pub const NODE_BYTES: usize = 16;

/// The largest capacity: a longer store is allowed.
pub const MAX_CAPACITY: usize = 65_535;

/// The output bytes that a verdict needs.
pub const VERDICT_BYTES: usize = 32;

/// The words of cache that [`judge`] lends: 4096 remembered results.
pub const CACHE_WORDS: usize = 16_384;

/// The registers of a session.
pub const REGISTERS: usize = 16;

/// What a filled register holds: a weight, and the number of a node (0 is the constant 1).
#[derive(Debug, Clone, Copy, PartialEq, Eq, Hash)]
pub struct Edge {
    pub weight: u64,
    pub node: u64,
}

/// A session's result.
#[derive(Debug, Clone, Copy, PartialEq, Eq, Hash)]
pub struct Session {
    /// 0, or 9 where the run stopped before a line because fewer than 16 output bytes remained.
    pub code: u64,
    /// Lines answered.
    pub lines: u64,
    /// Bytes written at the start of the output.
    pub bytes: u64,
    /// Nodes in the store.
    pub count: u64,
    /// The sixteen registers; `None` is empty.
    pub registers: [Option<Edge>; REGISTERS],
}

/// A verdict's result.
#[derive(Debug, Clone, Copy, PartialEq, Eq, Hash)]
pub struct Verdict {
    /// 0 (also with `no`), or 9 where the output has fewer than 32 bytes.
    pub code: u64,
    /// Bytes written at the start of the output.
    pub bytes: u64,
}

/// What a verdict says of a text's two lists.
#[derive(Debug, Clone, Copy, PartialEq, Eq, Hash)]
pub enum Answer {
    /// The lists are the same matrix over the field.
    Same,
    /// The first list is this factor, 2 to 65536, times the second.
    Factor(u32),
    /// Neither.
    Differ,
    /// Nothing is said about the lists: the fault's number (10 to 14, or 8 where the store was full) and its line,
    /// counted from 1.
    No { fault: u8, line: u64 },
}

/// Answers the lines of a session, from no nodes and empty registers.
///
/// ```
/// let (mut store, mut out) = ([0; 64], [0; 64]);
/// let text = b"gate\t0\tH\t0\non\t0\nlows\t0\t0\t6\non\t0\n";
/// let result = jorehyi::session(text, &mut store, &mut [], &mut out);
/// assert_eq!(&out[..result.bytes as usize], b"ok\t2\nm\t6\nok\t4\nm\t3\n");
/// ```
pub fn session(text: &[u8], store: &mut [u8], cache: &mut [u64], out: &mut [u8]) -> Session {
    let words = raw::session(text, store, cache, out);
    Session {
        code: words[0],
        lines: words[1],
        bytes: words[2],
        count: words[3],
        registers: std::array::from_fn(|i| register(&words[4 + 3 * i..7 + 3 * i])),
    }
}

/// Writes the verdict on a text: one line, or nothing where the output has fewer than 32 bytes.
pub fn verdict(text: &[u8], store: &mut [u8], cache: &mut [u64], out: &mut [u8]) -> Verdict {
    let words = raw::verdict(text, store, cache, out);
    Verdict {
        code: words[0],
        bytes: words[1],
    }
}

/// The verdict on a text, on a store of `capacity` nodes (those above [`MAX_CAPACITY`] are of no use and are not
/// allocated).
///
/// # Panics
///
/// Where the linked archive gives what a verdict never is.
pub fn judge(text: &[u8], capacity: usize) -> Answer {
    let mut store = vec![0; capacity.min(MAX_CAPACITY) * NODE_BYTES];
    let mut cache = vec![0; CACHE_WORDS];
    let mut out = [0; VERDICT_BYTES];
    let result = verdict(text, &mut store, &mut cache, &mut out);
    assert_eq!(result.code, 0, "a verdict with 32 output bytes has code 0");
    let line = &out[..result.bytes as usize];
    parse(line).unwrap_or_else(|| panic!("not a verdict's answer: {:?}", line.escape_ascii()))
}

/// Reads a verdict's answer line, its LF included; `None` for anything else.
pub fn parse(line: &[u8]) -> Option<Answer> {
    let line = std::str::from_utf8(line).ok()?.strip_suffix('\n')?;
    let fields: Vec<&str> = line.split('\t').collect();
    match fields[..] {
        ["same"] => Some(Answer::Same),
        ["differ"] => Some(Answer::Differ),
        ["factor", f] => match number(f)? {
            f @ 2..=65_536 => Some(Answer::Factor(f as u32)),
            _ => None,
        },
        ["no", fault, line] => match (number(fault)?, number(line)?) {
            (fault @ (8 | 10..=14), line @ 1..) => Some(Answer::No {
                fault: fault as u8,
                line,
            }),
            _ => None,
        },
        _ => None,
    }
}

/// A number as the engine prints it: digits only, no needless leading zero.
fn number(field: &str) -> Option<u64> {
    let plain = field.bytes().all(|b| b.is_ascii_digit());
    let padded = field.len() > 1 && field.starts_with('0');
    if plain && !padded {
        field.parse().ok()
    } else {
        None
    }
}

/// The three words of a register: whether it is filled, weight, node.
fn register(words: &[u64]) -> Option<Edge> {
    match *words {
        [0, ..] => None,
        [_, weight, node] => Some(Edge { weight, node }),
        _ => unreachable!("a register has three words"),
    }
}
