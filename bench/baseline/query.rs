//! The page of a listing that a query asks for.
use std::borrow::Cow;

use crate::answer::{fault, Fault};

const PAGE: usize = 100;

/// How many rows are passed over, and how many are shown at most.
#[derive(Clone, Copy)]
pub struct Window {
    pub limit: usize,
    pub offset: usize,
}

impl Window {
    /// The rows of a list that are shown.
    pub fn of<T>(self, rows: &[T]) -> &[T] {
        let from = self.offset.min(rows.len());
        &rows[from..rows.len().min(from + self.limit)]
    }
}

/// Percent-decodes, and where it is a form's also takes a plus for a blank; a `%` without two hexadecimal digits stands for itself.
pub fn decoded(bytes: &[u8], is_form: bool) -> Cow<'_, [u8]> {
    if !bytes.iter().any(|&it| it == b'%' || is_form && it == b'+') {
        return Cow::Borrowed(bytes);
    }
    let digit = |at: usize| bytes.get(at).and_then(|&it| char::from(it).to_digit(16));
    let (mut out, mut at) = (Vec::with_capacity(bytes.len()), 0);
    while at < bytes.len() {
        match (bytes[at], digit(at + 1), digit(at + 2)) {
            (b'%', Some(high), Some(low)) => {
                out.push((high * 16 + low) as u8);
                at += 2;
            }
            (b'+', ..) if is_form => out.push(b' '),
            (byte, ..) => out.push(byte),
        }
        at += 1;
    }
    Cow::Owned(out)
}

fn number(digits: &[u8]) -> Option<usize> {
    let add = |sum: usize, it: &u8| it.is_ascii_digit().then(|| sum.saturating_mul(10).saturating_add(usize::from(it - b'0')));
    digits.iter().try_fold(0, add).filter(|_| !digits.is_empty())
}

/// Reads `limit` and `offset`: the first of each counts, and a limit above that of a page is a page's.
pub fn window(query: &[u8]) -> Result<Window, Fault> {
    let (mut limit, mut offset) = (None, None);
    for part in query.split(|&it| it == b'&') {
        let at = part.iter().position(|&it| it == b'=').unwrap_or(part.len());
        let place = match &*decoded(&part[..at], true) {
            b"limit" => &mut limit,
            b"offset" => &mut offset,
            _ => continue,
        };
        let value = part.get(at + 1..).unwrap_or_default();
        place.get_or_insert_with(|| number(&decoded(value, true)));
    }
    let limit = limit.unwrap_or(Some(PAGE)).ok_or_else(|| fault(400, "bad parameter: limit"))?;
    let offset = offset.unwrap_or(Some(0)).ok_or_else(|| fault(400, "bad parameter: offset"))?;
    Ok(Window { limit: limit.min(PAGE), offset })
}
