//! What bench.py compares afplane with: the same work as a Rust programmer would write it by hand, with std alone.
//!
//!   baseline once CONFIG NOW < requests > answers
//!
//! It reads and judges the configuration, reads the head and the body of each request, finds its fields, routes the path
//! by its segments, hashes the token with SHA-256, looks the user up, tests the user's permissions, reads the query of a
//! listing, does the operation, adds the entry of a change and writes JSON. Buffers are kept from one request to the next, and the answers to requests that came together share a
//! write. It answers what afplane answers, byte for byte, but that it reads instants of RFC 3339's form alone, and that
//! want of memory ends it.
use std::fs::File;
use std::io::{self, Read, Write};
use std::os::fd::AsFd;
use std::process::exit;

#[path = "baseline/answer.rs"]
mod answer;
#[path = "baseline/audit.rs"]
mod audit;
#[path = "baseline/changes.rs"]
mod changes;
#[path = "baseline/config.rs"]
mod config;
#[path = "baseline/graph.rs"]
mod graph;
#[path = "baseline/head.rs"]
mod head;
#[path = "baseline/instant.rs"]
mod instant;
#[path = "baseline/json.rs"]
mod json;
#[path = "baseline/names.rs"]
mod names;
#[path = "baseline/operations.rs"]
mod operations;
#[path = "baseline/plane.rs"]
mod plane;
#[path = "baseline/policy.rs"]
mod policy;
#[path = "baseline/pools.rs"]
mod pools;
#[path = "baseline/query.rs"]
mod query;
#[path = "baseline/routes.rs"]
mod routes;
#[path = "baseline/rows.rs"]
mod rows;
#[path = "baseline/sha256.rs"]
mod sha256;
#[path = "baseline/text.rs"]
mod text;

use answer::{fault, put_fault, put_head, refuse};
use audit::Author;
use head::{head_end, parse_head, Head, Refused, MOST_BODY, MOST_HEAD};
use operations::Asked;
use plane::Plane;
use policy::Policy;
use routes::{route, Op, Unrouted};

const MOST_REQUESTS: usize = 1_000;
/// As many bytes of answers are written at once, if there are so many.
const SHARED: usize = 65_536;

/// How a connection ends before its last request.
enum End {
    /// The input ended between two requests.
    Closed,
    Refused(Refused),
}

struct Connection {
    policy: Policy,
    plane: Plane,
    now: u64,
    reader: File,
    writer: File,
    input: Vec<u8>,
    /// What is read and not yet answered is `input[start..end]`.
    start: usize,
    end: usize,
    out: Vec<u8>,
    /// The body of a reply, before its length is known.
    reply: Vec<u8>,
}

impl Connection {
    fn answer(&mut self, head: &Head<'_>, body: &[u8], closes: bool) {
        let at = head.target.iter().position(|&it| it == b'?').unwrap_or(head.target.len());
        let (path, query) = (&head.target[..at], head.target.get(at + 1..).unwrap_or_default());
        self.reply.clear();
        let op = match route(head.method, path) {
            Ok(Op::Version) => {
                self.reply.extend_from_slice(b"{\"git_version\":null,\"version\":\"afplane 1\"}");
                put_head(&mut self.out, 200, self.reply.len(), None, None, closes);
                return self.out.extend_from_slice(&self.reply);
            }
            Ok(op) => op,
            Err(why) => {
                let (fault, allow) = match why {
                    Unrouted::NoPath => (fault(404, "no such path"), None),
                    Unrouted::BadMethod(allow) => (fault(405, "method not allowed"), Some(allow)),
                };
                return refuse(&mut self.out, &fault, allow, closes, head.method == b"HEAD");
            }
        };
        let decided = match head.token.and_then(|it| self.policy.bearer(it)) {
            Some(bearer) => {
                let author = Author { name: bearer.name(), version: self.policy.version, now: self.now };
                let asked = Asked { op: &op, query, body, author };
                operations::decide(&mut self.plane, &bearer, &asked, &mut self.reply)
            }
            None => Err(fault(401, "authentication required")),
        };
        let status = match decided {
            Ok(()) if self.reply.is_empty() => 204,
            Ok(()) => 200,
            Err(fault) => {
                put_fault(&mut self.reply, &fault);
                fault.status
            }
        };
        let seen = Some((self.policy.version, Some(self.plane.audit.entries.len())));
        put_head(&mut self.out, status, self.reply.len(), None, seen, closes);
        self.out.extend_from_slice(&self.reply);
    }

    fn flush(&mut self) -> io::Result<()> {
        self.writer.write_all(&self.out)?;
        self.out.clear();
        Ok(())
    }

    /// Reads on, once what was answered is written. False at the end of the input.
    fn read_more(&mut self) -> io::Result<bool> {
        self.flush()?;
        self.input.copy_within(self.start..self.end, 0);
        (self.start, self.end) = (0, self.end - self.start);
        let read = self.reader.read(&mut self.input[self.end..])?;
        self.end += read;
        Ok(read > 0)
    }

    /// Gathers a head: its length, and how many lines it has.
    fn gather_head(&mut self) -> io::Result<Result<(usize, usize), End>> {
        loop {
            while let [b'\n', ..] | [b'\r', b'\n', ..] = self.input[self.start..self.end] {
                self.start += if self.input[self.start] == b'\n' { 1 } else { 2 };
            }
            let held = &self.input[self.start..self.end.min(self.start + MOST_HEAD + 1)];
            if let Some(found) = head_end(held) {
                return Ok(Ok(found));
            }
            if held.len() > MOST_HEAD {
                return Ok(Err(End::Refused((fault(431, "request head too large"), false))));
            }
            if !self.read_more()? {
                let is_between = self.start == self.end;
                let incomplete = || End::Refused((fault(400, "incomplete request"), false));
                return Ok(Err(if is_between { End::Closed } else { incomplete() }));
            }
        }
    }

    /// Answers the next request. Whether the connection goes on, or how it ends.
    fn turn(&mut self, is_last: bool) -> io::Result<Result<bool, End>> {
        let (size, lines) = match self.gather_head()? {
            Ok(it) => it,
            Err(end) => return Ok(Err(end)),
        };
        let mut bytes = std::mem::take(&mut self.input);
        let mut head = parse_head(&bytes[self.start..self.start + size], lines);
        if let Ok(Head { length, method, .. }) = head {
            if self.end - self.start < size + length {
                // The head is read again once its body is there.
                let is_bare = method == b"HEAD";
                self.input = bytes;
                while self.end - self.start < size + length {
                    if !self.read_more()? {
                        return Ok(Err(End::Refused((fault(400, "incomplete request"), is_bare))));
                    }
                }
                bytes = std::mem::take(&mut self.input);
                head = parse_head(&bytes[self.start..self.start + size], lines);
            }
        }
        let done = match head {
            Ok(head) => {
                let (body, closes) = (self.start + size, head.closes || is_last);
                let next = body + head.length;
                self.answer(&head, &bytes[body..next], closes);
                self.start = next;
                Ok(!closes)
            }
            Err(refused) => Err(End::Refused(refused)),
        };
        self.input = bytes;
        Ok(done)
    }

    /// Serves the connection; whether it ended without a refusal.
    fn serve(mut self) -> io::Result<bool> {
        let mut is_well = true;
        for count in 1..=MOST_REQUESTS {
            match self.turn(count == MOST_REQUESTS)? {
                Ok(true) => {}
                Ok(false) | Err(End::Closed) => break,
                Err(End::Refused((fault, is_bare))) => {
                    refuse(&mut self.out, &fault, None, true, is_bare);
                    is_well = false;
                    break;
                }
            }
            if self.out.len() >= SHARED {
                self.flush()?;
            }
        }
        self.flush()?;
        Ok(is_well)
    }
}

fn read_file(path: &str) -> Result<Vec<u8>, &'static str> {
    let bytes = std::fs::read(path).map_err(|_| "unreadable")?;
    if bytes.len() > config::MOST_BYTES { Err("unreadable") } else { Ok(bytes) }
}

fn main() -> io::Result<()> {
    let words: Vec<String> = std::env::args().collect();
    let (path, now) = match &words[..] {
        [_, once, path, now] if once == "once" => (path, instant::read(now)),
        _ => (&words[0], None),
    };
    let Some(now) = now else {
        eprintln!("usage: baseline once CONFIG NOW");
        exit(2)
    };
    let bytes = read_file(path);
    let read = bytes.as_deref().map_err(|&it| it).and_then(config::read);
    let (policy, plane) = read.unwrap_or_else(|reason| {
        eprintln!("afplane: configuration refused: {reason}");
        exit(3)
    });
    drop(bytes);
    let connection = Connection {
        policy,
        plane,
        now,
        reader: File::from(io::stdin().as_fd().try_clone_to_owned()?),
        writer: File::from(io::stdout().as_fd().try_clone_to_owned()?),
        input: vec![0; 2 * (MOST_HEAD + MOST_BODY)],
        start: 0,
        end: 0,
        out: Vec::with_capacity(2 * SHARED),
        reply: Vec::with_capacity(SHARED),
    };
    let is_well = connection.serve()?;
    exit(if is_well { 0 } else { 1 })
}
