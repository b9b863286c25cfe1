//! Texts, numbers, dates and listings, as compact JSON has them.
use crate::instant;

pub fn put(out: &mut Vec<u8>, text: &str) {
    out.extend_from_slice(text.as_bytes());
}

pub fn put_number(out: &mut Vec<u8>, mut number: u64) {
    let mut digits = [0u8; 20];
    let mut at = digits.len();
    loop {
        at -= 1;
        digits[at] = b'0' + (number % 10) as u8;
        number /= 10;
        if number == 0 {
            break;
        }
    }
    out.extend_from_slice(&digits[at..]);
}

pub fn put_signed(out: &mut Vec<u8>, number: i32) {
    if number < 0 {
        out.push(b'-');
    }
    put_number(out, number.unsigned_abs().into());
}

/// A text between quotes, with what JSON escapes: the names of pools and variables, and the values of these. Nothing else that
/// is shown needs it.
pub fn put_name(out: &mut Vec<u8>, text: &str) {
    out.push(b'"');
    put_escaped(out, text);
    out.push(b'"');
}

pub fn put_escaped(out: &mut Vec<u8>, text: &str) {
    let mut rest = text;
    while let Some(at) = rest.bytes().position(|it| matches!(it, b'"' | b'\\' | 0..32)) {
        put(out, &rest[..at]);
        match rest.as_bytes()[at] {
            byte @ (b'"' | b'\\') => out.extend_from_slice(&[b'\\', byte]),
            b'\n' => put(out, "\\n"),
            b'\r' => put(out, "\\r"),
            b'\t' => put(out, "\\t"),
            8 => put(out, "\\b"),
            12 => put(out, "\\f"),
            byte => put(out, &format!("\\u{byte:04x}")),
        }
        rest = &rest[at + 1..];
    }
    put(out, rest);
}

pub fn put_date(out: &mut Vec<u8>, date: Option<u64>) {
    let Some(date) = date else { return put(out, "null") };
    out.push(b'"');
    instant::put(out, date);
    out.push(b'"');
}

/// A listing: the rows that are shown, and how many there are in all.
pub fn put_listing<T>(out: &mut Vec<u8>, name: &str, rows: impl IntoIterator<Item = T>, total: usize, mut put_row: impl FnMut(&mut Vec<u8>, T)) {
    open_listing(out, name);
    for (at, row) in rows.into_iter().enumerate() {
        if at > 0 {
            out.push(b',');
        }
        put_row(out, row);
    }
    close_listing(out, total);
}

pub fn open_listing(out: &mut Vec<u8>, name: &str) {
    put(out, "{\"");
    put(out, name);
    put(out, "\":[");
}

pub fn close_listing(out: &mut Vec<u8>, total: usize) {
    put(out, "],\"total_entries\":");
    put_number(out, total as u64);
    out.push(b'}');
}
