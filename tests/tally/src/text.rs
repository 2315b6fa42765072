//! Lines, fields and numbers.

/// "A text is split at LF; a last part without LF counts unless empty."
pub fn lines(text: &[u8]) -> Vec<&[u8]> {
    let mut parts: Vec<&[u8]> = text.split(|&b| b == b'\n').collect();
    if parts.last().is_some_and(|last| last.is_empty()) {
        parts.pop();
    }
    parts
}

/// "Fields are parted by one tab." So each tab parts two fields, and empty fields count.
pub fn fields(line: &[u8]) -> Vec<&[u8]> {
    line.split(|&b| b == b'\t').collect()
}

/// "Numbers have 1 to 8 digits and no needless leading zero."
pub fn number(field: &[u8]) -> Option<u32> {
    let digits = (1..=8).contains(&field.len()) && field.iter().all(u8::is_ascii_digit);
    let needless = field.len() > 1 && field[0] == b'0';
    if !digits || needless {
        return None;
    }
    Some(field.iter().fold(0, |n, b| 10 * n + u32::from(b - b'0')))
}
