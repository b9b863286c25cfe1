//! The head of a request, looked at once: where its lines end, and what they ask.
use crate::answer::{fault, Fault};

pub const MOST_HEAD: usize = 16_384;
pub const MOST_BODY: usize = 65_536;
const MOST_FIELDS: usize = 64;

pub struct Head<'a> {
    pub method: &'a [u8],
    pub target: &'a [u8],
    pub token: Option<&'a [u8]>,
    /// How long the body is.
    pub length: usize,
    pub closes: bool,
}

/// A request that is refused as a message, and whether its method is known to be HEAD.
pub type Refused = (Fault, bool);

/// Where the lines of a head end, each behind its line feed, and the empty one at last.
pub struct Lines {
    ends: [u32; MOST_FIELDS + 2],
    pub count: usize,
    pub size: usize,
}

static IS_TOKEN: [bool; 256] = {
    let mut table = [false; 256];
    let mut at = 0;
    while at < 256 {
        table[at] = (at as u8).is_ascii_alphanumeric();
        at += 1;
    }
    let more = b"!#$%&'*+-.^_`|~";
    let mut at = 0;
    while at < more.len() {
        table[more[at] as usize] = true;
        at += 1;
    }
    table
};

/// The place of the first line feed, eight bytes at a time.
fn line_feed(bytes: &[u8]) -> Option<usize> {
    const ONES: u64 = u64::MAX / 255;
    let words = bytes.chunks_exact(8);
    let rest = words.remainder();
    for (at, it) in words.enumerate() {
        let it = u64::from_le_bytes(it.try_into().unwrap()) ^ (ONES * b'\n' as u64);
        let found = it.wrapping_sub(ONES) & !it & (ONES << 7);
        if found != 0 {
            return Some(at * 8 + found.trailing_zeros() as usize / 8);
        }
    }
    rest.iter().position(|&it| it == b'\n').map(|at| bytes.len() - rest.len() + at)
}

/// The lines of a head, if it is whole.
pub fn lines(bytes: &[u8]) -> Option<Lines> {
    let mut lines = Lines { ends: [0; MOST_FIELDS + 2], count: 0, size: 0 };
    let mut at = 0;
    loop {
        at += line_feed(&bytes[at..])? + 1;
        if let Some(end) = lines.ends.get_mut(lines.count) {
            *end = at as u32;
        }
        lines.count += 1;
        match bytes[at..] {
            [b'\n', ..] => lines.size = at + 1,
            [b'\r', b'\n', ..] => lines.size = at + 2,
            _ => continue,
        }
        return Some(lines);
    }
}

/// Without blanks and tabs on both sides.
fn trim(mut bytes: &[u8]) -> &[u8] {
    while let [b' ' | b'\t', rest @ ..] | [rest @ .., b' ' | b'\t'] = bytes {
        bytes = rest;
    }
    bytes
}

/// How many bytes of a token stand first.
fn token_len(bytes: &[u8]) -> usize {
    bytes.iter().take_while(|&&it| IS_TOKEN[usize::from(it)]).count()
}

/// Whether no byte is a control byte, but for tabs. All bytes are looked at, several at a time.
fn is_text(bytes: &[u8]) -> bool {
    !bytes.iter().fold(false, |is_bad, &it| is_bad | (it < b' ') & (it != b'\t') | (it == 0x7f))
}

/// Whether all bytes may stand in a target.
fn is_target(bytes: &[u8]) -> bool {
    let is_bad = bytes.iter().fold(false, |is_bad, &it| is_bad | (it <= b' ') | (it == 0x7f));
    !bytes.is_empty() && !is_bad && (bytes.is_ascii() || std::str::from_utf8(bytes).is_ok())
}

/// The token after `Bearer` and spaces.
fn bearer(value: &[u8]) -> Option<&[u8]> {
    let (scheme, rest) = value.split_at_checked(6)?;
    let token = &rest[rest.iter().take_while(|&&it| it == b' ').count()..];
    (scheme.eq_ignore_ascii_case(b"bearer") && token.len() < rest.len()).then_some(token)
}

fn number(digits: &[u8]) -> Option<usize> {
    let add = |sum: usize, it: &u8| it.is_ascii_digit().then(|| sum.saturating_mul(10).saturating_add(usize::from(it - b'0')));
    digits.iter().try_fold(0, add).filter(|_| !digits.is_empty())
}

/// What a head asks, whose lines are known.
pub fn parse_head<'a>(head: &'a [u8], lines: &Lines) -> Result<Head<'a>, Refused> {
    if lines.count > MOST_FIELDS + 1 {
        return Err((fault(431, "request head too large"), false));
    }
    let bad = || fault(400, "bad request head");
    let (asked, fields) = read_head(head, lines).ok_or_else(|| (bad(), false))?;
    let is_bare = asked.method == b"HEAD";
    let length = fields.length.filter(|_| fields.has_host).ok_or_else(|| (bad(), is_bare))?;
    if fields.is_coded {
        return Err((fault(501, "transfer coding not supported"), is_bare));
    }
    if length > MOST_BODY {
        return Err((fault(413, "body too large"), is_bare));
    }
    Ok(Head { length, ..asked })
}

/// What the fields say of the body, where they may be wrong.
struct Fields {
    has_host: bool,
    length: Option<usize>,
    is_coded: bool,
}

fn read_head<'a>(head: &'a [u8], lines: &Lines) -> Option<(Head<'a>, Fields)> {
    let mut from = 0;
    let mut ends = lines.ends[..lines.count].iter().map(|&end| {
        let line = &head[std::mem::replace(&mut from, end as usize)..end as usize - 1];
        line.strip_suffix(b"\r").unwrap_or(line)
    });
    let first = ends.next()?;
    let (method, rest) = first.split_at(token_len(first));
    let (rest, version) = rest.split_at(rest.len().checked_sub(9)?);
    let target = rest.strip_prefix(b" ")?;
    let is_old = version == b" HTTP/1.0";
    if method.is_empty() || !is_target(target) || !is_old && version != b" HTTP/1.1" {
        return None;
    }
    let mut it = Head { method, target, token: None, length: 0, closes: is_old };
    let (mut hosts, mut authorizations, mut lengths) = (0, 0, 0);
    let (mut length, mut is_coded) = (Some(0), false);
    for line in ends {
        let (name, rest) = line.split_at(token_len(line));
        let value = trim(rest.strip_prefix(b":")?);
        if name.is_empty() || !is_text(value) {
            return None;
        }
        let is = |wanted: &[u8]| name.eq_ignore_ascii_case(wanted);
        match name.len() {
            4 if is(b"host") => hosts += 1,
            13 if is(b"authorization") => {
                authorizations += 1;
                it.token = bearer(value);
            }
            14 if is(b"content-length") => {
                lengths += 1;
                length = number(value);
            }
            10 if is(b"connection") => it.closes |= value.split(|&it| it == b',').any(|it| trim(it).eq_ignore_ascii_case(b"close")),
            17 if is(b"transfer-encoding") => is_coded = true,
            _ => {}
        }
    }
    it.token = it.token.filter(|_| authorizations == 1);
    Some((it, Fields { has_host: is_old || hosts == 1, length: length.filter(|_| lengths <= 1), is_coded }))
}
