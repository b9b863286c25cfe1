//! The head of a request: where it ends, and what it asks.
use crate::answer::{fault, Fault};

pub const MOST_HEAD: usize = 16_384;
pub const MOST_BODY: usize = 65_536;
const MOST_FIELDS: usize = 64;

pub struct Head<'a> {
    pub method: &'a [u8],
    pub target: &'a [u8],
    pub token: Option<&'a [u8]>,
    /// How long the body is.
    pub length: usize,
    pub closes: bool,
}

/// A request that is refused as a message, and whether its method is known to be HEAD.
pub type Refused = (Fault, bool);

static IS_TOKEN: [bool; 256] = {
    let mut table = [false; 256];
    let mut at = 0;
    while at < 256 {
        table[at] = (at as u8).is_ascii_alphanumeric();
        at += 1;
    }
    let more = b"!#$%&'*+-.^_`|~";
    let mut at = 0;
    while at < more.len() {
        table[more[at] as usize] = true;
        at += 1;
    }
    table
};

fn is_token(bytes: &[u8]) -> bool {
    !bytes.is_empty() && bytes.iter().all(|&it| IS_TOKEN[usize::from(it)])
}

fn trim(mut bytes: &[u8]) -> &[u8] {
    while let [b' ' | b'\t', rest @ ..] | [rest @ .., b' ' | b'\t'] = bytes {
        bytes = rest;
    }
    bytes
}

/// The token after `Bearer` and spaces.
fn bearer(value: &[u8]) -> Option<&[u8]> {
    let (scheme, rest) = value.split_at_checked(6)?;
    let token = &rest[rest.iter().take_while(|&&it| it == b' ').count()..];
    (scheme.eq_ignore_ascii_case(b"bearer") && token.len() < rest.len()).then_some(token)
}

/// Where the bytes after the empty line begin, and how many lines stand before it, if the head is whole.
pub fn head_end(bytes: &[u8]) -> Option<(usize, usize)> {
    let (mut at, mut lines) = (0, 0);
    while let Some(next) = bytes[at..].iter().position(|&it| it == b'\n') {
        at += next + 1;
        lines += 1;
        match bytes[at..] {
            [b'\n', ..] => return Some((at + 1, lines)),
            [b'\r', b'\n', ..] => return Some((at + 2, lines)),
            _ => {}
        }
    }
    None
}

/// What a head asks, which has so many lines.
pub fn parse_head(head: &[u8], lines: usize) -> Result<Head<'_>, Refused> {
    if lines > MOST_FIELDS + 1 {
        return Err((fault(431, "request head too large"), false));
    }
    let bad = || fault(400, "bad request head");
    let (asked, fields) = read_head(head).ok_or_else(|| (bad(), false))?;
    let is_bare = asked.method == b"HEAD";
    if !fields.has_host {
        return Err((bad(), is_bare));
    }
    let Some(length) = fields.length else { return Err((bad(), is_bare)) };
    if fields.is_coded {
        return Err((fault(501, "transfer coding not supported"), is_bare));
    }
    if length > MOST_BODY {
        return Err((fault(413, "body too large"), is_bare));
    }
    Ok(Head { length, ..asked })
}

/// What the fields say of the body, where they may be wrong.
struct Fields {
    has_host: bool,
    length: Option<usize>,
    is_coded: bool,
}

fn read_head(head: &[u8]) -> Option<(Head<'_>, Fields)> {
    let mut lines = head.split(|&it| it == b'\n').map(|it| it.strip_suffix(b"\r").unwrap_or(it));
    let mut words = lines.next()?.splitn(3, |&it| it == b' ');
    let (method, target, version) = (words.next()?, words.next()?, words.next()?);
    let is_target = !target.is_empty() && !target.iter().any(|&it| it <= b' ' || it == 0x7f);
    let is_version = version == b"HTTP/1.1" || version == b"HTTP/1.0";
    if !is_token(method) || !is_target || !is_version || std::str::from_utf8(target).is_err() {
        return None;
    }
    let is_old = version == b"HTTP/1.0";
    let mut it = Head { method, target, token: None, length: 0, closes: is_old };
    let (mut hosts, mut authorizations, mut lengths) = (0, 0, 0);
    let (mut length, mut is_coded) = (Some(0), false);
    for line in lines.take_while(|it| !it.is_empty()) {
        let colon = line.iter().position(|&it| it == b':')?;
        let (name, value) = (&line[..colon], trim(&line[colon + 1..]));
        if !is_token(name) || value.iter().any(|&it| it < b' ' && it != b'\t' || it == 0x7f) {
            return None;
        }
        if name.eq_ignore_ascii_case(b"host") {
            hosts += 1;
        } else if name.eq_ignore_ascii_case(b"authorization") {
            authorizations += 1;
            it.token = bearer(value);
        } else if name.eq_ignore_ascii_case(b"content-length") {
            lengths += 1;
            length = number(value);
        } else if name.eq_ignore_ascii_case(b"connection") {
            it.closes |= value.split(|&it| it == b',').any(|it| trim(it).eq_ignore_ascii_case(b"close"));
        } else if name.eq_ignore_ascii_case(b"transfer-encoding") {
            is_coded = true;
        }
    }
    it.token = it.token.filter(|_| authorizations == 1);
    Some((it, Fields { has_host: is_old || hosts == 1, length: length.filter(|_| lengths <= 1), is_coded }))
}

fn number(digits: &[u8]) -> Option<usize> {
    let add = |sum: usize, it: &u8| it.is_ascii_digit().then(|| sum.saturating_mul(10).saturating_add(usize::from(it - b'0')));
    digits.iter().try_fold(0, add).filter(|_| !digits.is_empty())
}
