//! Verdict texts, read into gates (document 01, "Verdicts").

#[derive(Clone, Copy, Debug, PartialEq, Eq)]
pub enum Kind {
    X,
    Y,
    Z,
    H,
    S,
    Sd,
    T,
    Td,
    Cx,
    Cz,
    Sw,
}

/// A gate and its qubits; a gate on one qubit has it twice.
#[derive(Clone, Copy, Debug, PartialEq, Eq)]
pub struct Gate {
    pub kind: Kind,
    pub a: u8,
    pub b: u8,
}

/// Two lists of gates. The buffers are used again for the next text.
#[derive(Default)]
pub struct Lists {
    pub qubits: u8,
    pub first: Vec<Gate>,
    pub second: Vec<Gate>,
}

/// Document 01's number of a refusal, and its line.
#[derive(Clone, Copy, Debug, PartialEq, Eq)]
pub struct Refusal {
    pub number: u8,
    pub line: usize,
}

#[derive(Clone, Copy, Debug, PartialEq, Eq)]
pub enum Answer {
    Same,
    Factor(u32),
    Differ,
    No(Refusal),
}

const HEADER: u8 = 10;
const LINE: u8 = 11;
const QUBIT: u8 = 12;
const EQUAL: u8 = 13;
const PARTING: u8 = 14;
pub const FULL: u8 = 8;

impl Answer {
    /// The answer as it is printed.
    pub fn print(self) -> Vec<u8> {
        match self {
            Answer::Same => b"same\n".to_vec(),
            Answer::Differ => b"differ\n".to_vec(),
            Answer::Factor(f) => format!("factor\t{f}\n").into_bytes(),
            Answer::No(r) => format!("no\t{}\t{}\n", r.number, r.line).into_bytes(),
        }
    }
}

fn one_qubit(name: &[u8]) -> Option<Kind> {
    Some(match name {
        b"X" => Kind::X,
        b"Y" => Kind::Y,
        b"Z" => Kind::Z,
        b"H" => Kind::H,
        b"S" => Kind::S,
        b"SD" => Kind::Sd,
        b"T" => Kind::T,
        b"TD" => Kind::Td,
        _ => return None,
    })
}

fn two_qubits(name: &[u8]) -> Option<Kind> {
    Some(match name {
        b"CX" => Kind::Cx,
        b"CZ" => Kind::Cz,
        b"SW" => Kind::Sw,
        _ => return None,
    })
}

/// A gate line, or the number of its fault: its form, then the range of its qubits, then their equality.
fn gate(line: &[u8], qubits: u8) -> Result<Gate, u8> {
    let (name, a, b) = match line {
        [name @ .., b'\t', a @ b'0'..=b'9', b'\t', b @ b'0'..=b'9'] => (name, a - b'0', b - b'0'),
        [name @ .., b'\t', a @ b'0'..=b'9'] => {
            let a = a - b'0';
            let kind = one_qubit(name).ok_or(LINE)?;
            return if a < qubits {
                Ok(Gate { kind, a, b: a })
            } else {
                Err(QUBIT)
            };
        }
        _ => return Err(LINE),
    };
    let kind = two_qubits(name).ok_or(LINE)?;
    if a >= qubits || b >= qubits {
        return Err(QUBIT);
    }
    if a == b {
        return Err(EQUAL);
    }
    Ok(Gate { kind, a, b })
}

/// The line that begins at `at`, and where the next one begins.
fn line(text: &[u8], at: usize) -> (&[u8], usize) {
    let rest = &text[at..];
    let length = rest.iter().position(|&b| b == b'\n').unwrap_or(rest.len());
    (&rest[..length], at + length + 1)
}

impl Lists {
    /// Reads a whole text; the first faulty line decides.
    pub fn read(&mut self, text: &[u8]) -> Result<(), Refusal> {
        self.first.clear();
        self.second.clear();
        let (header, mut at) = line(text, 0);
        match header {
            [b'l', b'i', b'n', b'e', b's', b'\t', n @ b'1'..=b'8'] => self.qubits = n - b'0',
            _ => return Err(refusal(HEADER, 1)),
        }
        let mut parted = false;
        let mut count = 1;
        while at < text.len() {
            let (item, next) = line(text, at);
            at = next;
            count += 1;
            if item != b"=" {
                let list = if parted {
                    &mut self.second
                } else {
                    &mut self.first
                };
                list.push(gate(item, self.qubits).map_err(|f| refusal(f, count))?);
            } else if parted {
                return Err(refusal(PARTING, count));
            } else {
                parted = true;
            }
        }
        if parted {
            Ok(())
        } else {
            Err(refusal(PARTING, count + 1))
        }
    }
}

fn refusal(number: u8, line: usize) -> Refusal {
    Refusal { number, line }
}
