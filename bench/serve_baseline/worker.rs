//! A worker: one connection after another, and what it keeps from request to request.
use std::io::{self, Read, Write};
use std::net::{Shutdown, TcpStream};
use std::sync::Arc;
use std::time::{Duration, Instant, SystemTime, UNIX_EPOCH};

use crate::answer::{fault, put_fault, put_head, refuse, Fault};
use crate::change;
use crate::head::{lines, parse_head, Head, Lines, MOST_BODY, MOST_HEAD};
use crate::op::{route, Op, Unrouted};
use crate::plane::Author;
use crate::policy::{Bearer, Policy};
use crate::query::window;
use crate::rows::{put_me, put_role, put_user};
use crate::server::Server;
use crate::sha256;
use crate::step::{Copied, Step};
use crate::text::put_listing;

const MOST_REQUESTS: usize = 1_000;
/// As many bytes of answers are written at once, if there are so many.
const SHARED: usize = 65_536;
/// How long a whole request is awaited, and a write.
const PATIENCE: Duration = Duration::from_secs(10);

pub struct Worker<'a> {
    server: &'a Server,
    policy: Arc<Policy>,
    input: Vec<u8>,
    /// What is read and not yet answered is `input[start..end]`.
    start: usize,
    end: usize,
    out: Vec<u8>,
    /// The body of an answer, before its length is known.
    reply: Vec<u8>,
    copied: Copied,
}

/// When a request has to be whole, and whether the socket's patience is less than that of a new request.
struct Wait {
    until: Instant,
    is_cut: bool,
}

/// A request that is refused as a message, and whether its method is known to be HEAD; none where the input ended between two.
type Ended = Option<(Fault, bool)>;

fn now() -> u64 {
    SystemTime::now().duration_since(UNIX_EPOCH).map_or(0, |it| it.as_micros() as u64)
}

fn unknown() -> Fault {
    fault(401, "authentication required")
}

impl<'a> Worker<'a> {
    pub fn new(server: &'a Server) -> Worker<'a> {
        let input = vec![0; 2 * (MOST_HEAD + MOST_BODY)];
        let (out, reply) = (Vec::with_capacity(2 * SHARED), Vec::with_capacity(SHARED));
        Worker { server, policy: server.site.last(), input, start: 0, end: 0, out, reply, copied: Copied::default() }
    }

    /// Decides on the state: the number of entries, and whether it was refused.
    fn operate(&mut self, op: &Op<'_>, token: Option<&[u8]>, query: &[u8], body: &[u8]) -> (usize, Result<(), Fault>) {
        let (server, digest) = (self.server, token.map(sha256::digest));
        let place = server.dags.place(op.dag());
        loop {
            server.site.renew(&mut self.policy);
            let bearer = self.policy.bearer(digest.as_ref());
            let step = match &bearer {
                None => Err(unknown()),
                Some(bearer) => match bearer.missing(op.needs(), op.dag(), place) {
                    Some(need) => Err(fault(403, format!("missing permission {}", need.text(op.dag())))),
                    None => Step::of(op, place, bearer, (query, body), &server.dags, &mut self.copied),
                },
            };
            let author = match (&step, &bearer) {
                (Ok(step), Some(it)) if step.is_change() => Some(Author { owner: it.user.name.clone(), version: self.policy.version, when: now() }),
                _ => None,
            };
            let mut plane = server.plane.lock().unwrap();
            if !server.site.is_last(&self.policy) {
                continue;
            }
            let done = match step {
                Ok(step) => step.take(&mut plane, &server.dags, author, &mut self.copied).map(|_| step),
                Err(fault) => Err(fault),
            };
            let seen = plane.entries.len();
            // Only compiled with `--cfg under_lock` the lock is held on.
            let _held = cfg!(under_lock).then_some(plane);
            return (seen, done.map(|step| step.put(&server.dags, &self.copied, &mut self.reply)));
        }
    }

    fn read_policy(&mut self, op: &Op<'_>, bearer: &Bearer<'_>, query: &[u8]) -> Result<(), Fault> {
        let (policy, out) = (bearer.policy, &mut self.reply);
        match op {
            Op::User(name) => {
                let place = policy.users.place_of_name(name).ok_or_else(|| fault(404, format!("no such user: {name}")))?;
                put_user(out, policy.users.at(place), policy);
            }
            Op::Role(name) => {
                let place = policy.place_of_role(name).ok_or_else(|| fault(404, format!("no such role: {name}")))?;
                put_role(out, policy.role(place));
            }
            Op::Users => {
                let window = window(query)?;
                out.extend_from_slice(b"{\"total_entries\":");
                crate::text::put_number(out, policy.users.count as u64);
                out.extend_from_slice(b",\"users\":[");
                for (at, it) in policy.users.all().skip(window.offset).take(window.limit).enumerate() {
                    if at > 0 {
                        out.push(b',');
                    }
                    put_user(out, it, policy);
                }
                out.extend_from_slice(b"]}");
            }
            Op::Roles => {
                let window = window(query)?;
                let mut roles: Vec<_> = policy.roles.iter().collect();
                roles.sort_unstable_by(|a, b| a.name.cmp(&b.name));
                put_listing(out, "roles", window.of(&roles), roles.len(), |out, it| put_role(out, it));
            }
            _ => put_me(out, bearer, &self.server.dags),
        }
        Ok(())
    }

    /// Decides on the policy.
    fn administer(&mut self, op: &Op<'_>, token: Option<&[u8]>, query: &[u8], body: &[u8]) -> Result<(), Fault> {
        let (server, digest) = (self.server, token.map(sha256::digest));
        let changes = matches!(op, Op::SetUser(_) | Op::SetRole(_) | Op::Sync(_));
        let change = changes.then(|| change::read(op, body));
        let making = changes.then(|| server.site.making());
        server.site.renew(&mut self.policy);
        let policy = self.policy.clone();
        let bearer = policy.bearer(digest.as_ref()).ok_or_else(unknown)?;
        if let Some(need) = bearer.missing(op.needs(), "", None) {
            return Err(fault(403, format!("missing permission {}", need.text(""))));
        }
        let (Some(change), Some(mut making)) = (change, making) else { return self.read_policy(op, &bearer, query) };
        let mut next = Policy::clone(&policy);
        change?.make(&mut next, &server.dags, &mut self.reply).and_then(|_| match next.version > server.site.limit {
            true => Err(fault(507, "versions full")),
            false => Ok(()),
        })?;
        self.policy = Arc::new(next);
        server.site.publish(self.policy.clone(), &mut making);
        Ok(())
    }

    fn answer(&mut self, head: &Head<'_>, body: &[u8], closes: bool) {
        let at = head.target.iter().position(|&it| it == b'?').unwrap_or(head.target.len());
        let (path, query) = (&head.target[..at], head.target.get(at + 1..).unwrap_or_default());
        self.reply.clear();
        let op = match route(head.method, path) {
            Ok(it) => it,
            Err(why) => {
                let (fault, allow) = match why {
                    Unrouted::NoPath => (fault(404, "no such path"), None),
                    Unrouted::BadMethod(allow) => (fault(405, "method not allowed"), Some(allow)),
                };
                return refuse(&mut self.out, &fault, allow, closes, head.method == b"HEAD");
            }
        };
        let (entries, decided) = match op {
            Op::Version => {
                self.reply.extend_from_slice(b"{\"git_version\":null,\"version\":\"afplane 1\"}");
                put_head(&mut self.out, 200, self.reply.len(), None, None, closes);
                return self.out.extend_from_slice(&self.reply);
            }
            Op::Me | Op::Users | Op::User(_) | Op::SetUser(_) | Op::Roles | Op::Role(_) | Op::SetRole(_) | Op::Sync(_) => {
                (None, self.administer(&op, head.token, query, body))
            }
            _ => {
                let (seen, decided) = self.operate(&op, head.token, query, body);
                (Some(seen), decided)
            }
        };
        let status = decided.map_or_else(
            |fault| {
                self.reply.clear();
                put_fault(&mut self.reply, &fault);
                fault.status
            },
            |_| 200,
        );
        put_head(&mut self.out, status, self.reply.len(), None, Some((self.policy.version, entries)), closes);
        self.out.extend_from_slice(&self.reply);
    }

    /// Reads on, once what was answered is written. False at the end of the input.
    fn read_more(&mut self, stream: &mut &TcpStream, wait: &mut Option<Wait>) -> io::Result<bool> {
        stream.write_all(&self.out)?;
        self.out.clear();
        self.input.copy_within(self.start..self.end, 0);
        (self.start, self.end) = (0, self.end - self.start);
        match wait {
            None => *wait = Some(Wait { until: Instant::now() + PATIENCE, is_cut: false }),
            Some(wait) => {
                // The rest of a request has what is left of its time.
                let left = wait.until.saturating_duration_since(Instant::now());
                stream.set_read_timeout(Some(left.max(Duration::from_millis(1))))?;
                wait.is_cut = true;
            }
        }
        let read = stream.read(&mut self.input[self.end..])?;
        self.end += read;
        Ok(read > 0)
    }

    /// Gathers a head, and finds its lines.
    fn gather_head(&mut self, stream: &mut &TcpStream, wait: &mut Option<Wait>) -> io::Result<Result<Lines, Ended>> {
        loop {
            while let [b'\n', ..] | [b'\r', b'\n', ..] = self.input[self.start..self.end] {
                self.start += if self.input[self.start] == b'\n' { 1 } else { 2 };
            }
            let held = &self.input[self.start..self.end.min(self.start + MOST_HEAD + 1)];
            if let Some(found) = lines(held) {
                return Ok(Ok(found));
            }
            if held.len() > MOST_HEAD {
                return Ok(Err(Some((fault(431, "request head too large"), false))));
            }
            if !self.read_more(stream, wait)? {
                let is_between = self.start == self.end;
                return Ok(Err((!is_between).then(|| (fault(400, "incomplete request"), false))));
            }
        }
    }

    /// Answers the next request. Whether the connection goes on, or how it ends.
    fn turn(&mut self, stream: &mut &TcpStream, is_last: bool) -> io::Result<Result<bool, Ended>> {
        let mut wait = None;
        let lines = match self.gather_head(stream, &mut wait)? {
            Ok(it) => it,
            Err(end) => return Ok(Err(end)),
        };
        let size = lines.size;
        let mut bytes = std::mem::take(&mut self.input);
        let mut head = parse_head(&bytes[self.start..self.start + size], &lines);
        if let Ok(Head { length, method, .. }) = head {
            if self.end - self.start < size + length {
                // The head is read again once its body is there.
                let is_bare = method == b"HEAD";
                self.input = bytes;
                while self.end - self.start < size + length {
                    if !self.read_more(stream, &mut wait)? {
                        return Ok(Err(Some((fault(400, "incomplete request"), is_bare))));
                    }
                }
                bytes = std::mem::take(&mut self.input);
                head = parse_head(&bytes[self.start..self.start + size], &lines);
            }
        }
        let done = match head {
            Ok(head) => {
                let (body, closes) = (self.start + size, head.closes || is_last);
                let next = body + head.length;
                self.answer(&head, &bytes[body..next], closes);
                self.start = next;
                Ok(!closes)
            }
            Err(refused) => Err(Some(refused)),
        };
        self.input = bytes;
        if wait.is_some_and(|it| it.is_cut) {
            stream.set_read_timeout(Some(PATIENCE))?;
        }
        Ok(done)
    }

    /// Serves a connection to its end.
    pub fn serve(&mut self, mut stream: &TcpStream) -> io::Result<()> {
        stream.set_nodelay(true)?;
        stream.set_read_timeout(Some(PATIENCE))?;
        stream.set_write_timeout(Some(PATIENCE))?;
        (self.start, self.end) = (0, 0);
        self.out.clear();
        for count in 1..=MOST_REQUESTS {
            match self.turn(&mut stream, count == MOST_REQUESTS)? {
                Ok(true) => {}
                Ok(false) | Err(None) => break,
                Err(Some((fault, is_bare))) => {
                    refuse(&mut self.out, &fault, None, true, is_bare);
                    break;
                }
            }
            if self.out.len() >= SHARED {
                stream.write_all(&self.out)?;
                self.out.clear();
            }
        }
        stream.write_all(&self.out)?;
        // What is still to come is read, or the kernel would take the last answers back.
        stream.shutdown(Shutdown::Write)?;
        stream.set_read_timeout(Some(Duration::from_millis(100)))?;
        for _ in 0..100 {
            if stream.read(&mut self.input)? == 0 {
                break;
            }
        }
        Ok(())
    }
}
