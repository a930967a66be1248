//! The forms of the step program, one a line (document 01, "The step program").

use std::fmt;
use wellcherry::VALUE;

/// The longest line that may be a form, in bytes.
const LONGEST: usize = 80;

/// What a line says.
#[derive(Clone, Debug, PartialEq, Eq)]
#[allow(missing_docs)]
pub enum Form {
    SetUp {
        rows: u32,
        first: u32,
        limit: u32,
    },
    Begin {
        client: u32,
    },
    Read {
        client: u32,
        cell: u32,
    },
    Write {
        client: u32,
        cell: u32,
        value: [u8; VALUE],
    },
    Advance {
        client: u32,
    },
    Abandon {
        client: u32,
    },
    Trim,
    Free,
    /// No form.
    Other,
}

impl Form {
    /// The form of a line, which comes without its newline.
    pub fn of(line: &[u8]) -> Form {
        Some(line).filter(|line| line.len() <= LONGEST).and_then(read).unwrap_or(Form::Other)
    }

    /// The client that it names.
    pub fn client(&self) -> Option<u32> {
        match *self {
            Form::Begin { client }
            | Form::Read { client, .. }
            | Form::Write { client, .. }
            | Form::Advance { client }
            | Form::Abandon { client } => Some(client),
            _ => None,
        }
    }
}

/// Keyword, client and cell, as an answer repeats them.
impl fmt::Display for Form {
    fn fmt(&self, out: &mut fmt::Formatter) -> fmt::Result {
        match self {
            Form::SetUp { .. } => write!(out, "set-up"),
            Form::Begin { client } => write!(out, "begin {client}"),
            Form::Read { client, cell } => write!(out, "read {client} {cell}"),
            Form::Write { client, cell, .. } => write!(out, "write {client} {cell}"),
            Form::Advance { client } => write!(out, "advance {client}"),
            Form::Abandon { client } => write!(out, "abandon {client}"),
            Form::Trim => write!(out, "trim"),
            Form::Free => write!(out, "free"),
            Form::Other => write!(out, "line"),
        }
    }
}

/// The lines of a script. The last one needs no newline.
pub fn lines(script: &[u8]) -> impl Iterator<Item = &[u8]> {
    let lines = script.split_inclusive(|&byte| byte == b'\n');
    lines.map(|line| line.strip_suffix(b"\n").unwrap_or(line))
}

fn read(line: &[u8]) -> Option<Form> {
    let inner = line.strip_prefix(b"(")?.strip_suffix(b")")?;
    let words: Vec<&[u8]> = inner.split(|&byte| byte == b' ').collect();
    Some(match words[..] {
        [b"set-up", rows, first, limit] => {
            Form::SetUp { rows: decimal(rows)?, first: decimal(first)?, limit: decimal(limit)? }
        }
        [b"begin", client] => Form::Begin { client: decimal(client)? },
        [b"read", client, cell] => Form::Read { client: decimal(client)?, cell: decimal(cell)? },
        [b"write", client, cell, digits] => {
            Form::Write { client: decimal(client)?, cell: decimal(cell)?, value: value(digits)? }
        }
        [b"advance", client] => Form::Advance { client: decimal(client)? },
        [b"abandon", client] => Form::Abandon { client: decimal(client)? },
        [b"trim"] => Form::Trim,
        [b"free"] => Form::Free,
        _ => return None,
    })
}

/// Decimal digits without leading zeros, up to 4,294,967,295.
fn decimal(word: &[u8]) -> Option<u32> {
    let plain = word.iter().all(u8::is_ascii_digit) && (word.len() == 1 || !word.starts_with(b"0"));
    std::str::from_utf8(word).ok().filter(|_| plain)?.parse().ok()
}

/// Thirty-two lower-case hexadecimal digits.
fn value(word: &[u8]) -> Option<[u8; VALUE]> {
    let digits: Vec<u8> = word.iter().map(|&byte| digit(byte)).collect::<Option<_>>()?;
    let digits: [u8; 2 * VALUE] = digits.try_into().ok()?;
    Some(std::array::from_fn(|at| digits[2 * at] << 4 | digits[2 * at + 1]))
}

fn digit(byte: u8) -> Option<u8> {
    match byte {
        b'0'..=b'9' => Some(byte - b'0'),
        b'a'..=b'f' => Some(byte - b'a' + 10),
        _ => None,
    }
}
