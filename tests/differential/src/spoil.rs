//! Lines that are not quite calls.

use crate::rng::Rng;

const FIELDS: [&[u8]; 52] = [
    b"",
    b"0",
    b"1",
    b"7",
    b"8",
    b"9",
    b"00",
    b"01",
    b"007",
    b"10",
    b"15",
    b"16",
    b"017",
    b"22",
    b"23",
    b"24",
    b"25",
    b"255",
    b"256",
    b"65535",
    b"65536",
    b"65537",
    b"065536",
    b"131073",
    b"16777215",
    b"16777216",
    b"99999999",
    b"00000000",
    b"000000001",
    b"100000000",
    b"123456789",
    b"4294967296",
    b"18446744073709551616",
    b"-1",
    b"+1",
    b"1.0",
    b" 1",
    b"1 ",
    b"0x1",
    b"1e3",
    b"\xd9\xa4",
    b"\x001",
    b"1\r",
    b"\xff",
    b"=",
    b"H",
    b"h",
    b"CX",
    b"CCX",
    b"SDD",
    b"Q",
    b"/:",
];

const WORDS: [&[u8]; 19] = [
    b"put",
    b"gate",
    b"unit",
    b"add",
    b"cont",
    b"low",
    b"drop",
    b"collect",
    b"at",
    b"cmp",
    b"on",
    b"lows",
    b"lowss",
    b"root",
    b"turn",
    b"PUT",
    b"lines",
    b"",
    b"collect\r",
];

const BYTES: &[u8] = b"\t\t\t\n\r \x00\xff\x80=0123456789HXab-";

/// A line in which something is changed; mostly it is refused now.
pub fn spoil(rng: &mut Rng, line: &[u8]) -> Vec<u8> {
    match rng.weighted(&[40, 12, 12, 12, 8, 8, 4, 4]) {
        0 => replace_field(rng, line),
        1 => with_byte(rng, line, 0),
        2 => with_byte(rng, line, 1),
        3 => without_byte(rng, line),
        4 => extra_field(rng, line),
        5 => missing_field(rng, line),
        6 => Vec::new(),
        _ => noise(rng),
    }
}

/// Bytes of every kind.
pub fn noise(rng: &mut Rng) -> Vec<u8> {
    let len = rng.below(40);
    let plain = rng.percent(50);
    let byte = |rng: &mut Rng| if plain { *rng.pick(BYTES) } else { rng.byte() };
    (0..len).map(|_| byte(rng)).collect()
}

fn parts(line: &[u8]) -> Vec<Vec<u8>> {
    line.split(|&b| b == b'\t').map(<[u8]>::to_vec).collect()
}

/// A field that is a number at some border, hardly a number, a name or long.
fn field(rng: &mut Rng) -> Vec<u8> {
    if rng.percent(90) {
        return rng.pick(&FIELDS).to_vec();
    }
    let byte = *rng.pick(b"0179HCX\xff ");
    vec![byte; rng.between(8, 300)]
}

fn replace_field(rng: &mut Rng, line: &[u8]) -> Vec<u8> {
    let mut parts = parts(line);
    let i = rng.below(parts.len());
    parts[i] = if i == 0 {
        rng.pick(&WORDS).to_vec()
    } else {
        field(rng)
    };
    parts.join(&b'\t')
}

/// One byte put in, or put in the place of another.
fn with_byte(rng: &mut Rng, line: &[u8], removed: usize) -> Vec<u8> {
    let i = rng.between(0, line.len());
    let after = (i + removed).min(line.len());
    let byte = if rng.percent(70) {
        *rng.pick(BYTES)
    } else {
        rng.byte()
    };
    [&line[..i], &[byte], &line[after..]].concat()
}

fn without_byte(rng: &mut Rng, line: &[u8]) -> Vec<u8> {
    let mut line = line.to_vec();
    if !line.is_empty() {
        line.remove(rng.below(line.len()));
    }
    line
}

fn extra_field(rng: &mut Rng, line: &[u8]) -> Vec<u8> {
    let mut parts = parts(line);
    let i = rng.between(0, parts.len());
    parts.insert(i, field(rng));
    parts.join(&b'\t')
}

fn missing_field(rng: &mut Rng, line: &[u8]) -> Vec<u8> {
    let mut parts = parts(line);
    parts.remove(rng.below(parts.len()));
    parts.join(&b'\t')
}
