//! Calls as lines; `tests/vectors/README.md` has their form.

#[derive(Clone, Copy, PartialEq, Eq)]
pub enum Service {
    Read,
    Update,
    Empty,
}

/// A call. What its service does not take is empty.
pub struct Call {
    pub service: Service,
    pub table: Vec<u8>,
    pub stored: Vec<u8>,
    pub format: Vec<u8>,
    pub buffer: Vec<u8>,
    /// The length of the slice that is lent to be written.
    pub lent: usize,
}

pub fn call(line: &str) -> Result<Call, &'static str> {
    let words: Vec<&str> = line.split_whitespace().collect();
    let (service, table, stored, format, buffer, lent) = match words[..] {
        ["R", table, stored, format, lent] => (Service::Read, table, stored, format, "-", lent),
        ["U", table, stored, format, buffer, lent] => (Service::Update, table, stored, format, buffer, lent),
        ["E", table, lent] => (Service::Empty, table, "-", "-", "-", lent),
        _ => return Err("not a call"),
    };
    Ok(Call {
        service,
        table: bytes(table)?,
        stored: bytes(stored)?,
        format: bytes(format)?,
        buffer: bytes(buffer)?,
        lent: number(lent)?,
    })
}

pub fn number(word: &str) -> Result<usize, &'static str> {
    word.parse().map_err(|_| "not a length")
}

pub fn bytes(word: &str) -> Result<Vec<u8>, &'static str> {
    if word == "-" {
        return Ok(Vec::new());
    }
    let half = |digit: u8| (digit as char).to_digit(16).ok_or("not hexadecimal");
    if word.len() % 2 != 0 {
        return Err("half a byte");
    }
    word.as_bytes().chunks(2).map(|pair| Ok((half(pair[0])? << 4 | half(pair[1])?) as u8)).collect()
}
