//! What serve_bench.py plays requests with: blocking connections, a thread and one request under way each.
//!
//!   serve_load ADDRESS REQUESTS < commands > tellings
//!
//! REQUESTS is a file of records, a line `CONNECTION STATUS IS_CHANGE LENGTH` and that many bytes of a request. Each connection plays its own
//! requests, one after another and round again, and goes on where it stopped. A command is a line, `run CONNECTIONS SECONDS` or
//! `play CONNECTIONS COUNT` with a count for each connection, and is answered by a line of JSON.
//!
//! The time of a request, in nanoseconds, is from its write to the last byte of its answer. The status of each answer is compared. A change that is
//! answered 409, since another version was published before it, is asked again, and its time goes on. A connection that the server closes after an
//! answer is opened again; that is in no request's time, but its wait for a worker is.
use std::collections::BTreeMap;
use std::io::{self, Read, Write};
use std::net::{Shutdown, TcpStream};
use std::sync::Barrier;
use std::time::{Duration, Instant};

const PATIENCE: Duration = Duration::from_secs(20);

struct Asked {
    bytes: Vec<u8>,
    status: u16,
    is_change: bool,
}

/// What one connection plays, and where it stands.
#[derive(Default)]
struct Part {
    asked: Vec<Asked>,
    next: usize,
}

#[derive(Default)]
struct Told {
    took: Duration,
    nanos: Vec<u32>,
    changes: u64,
    moved: u64,
    opened: u64,
    errors: u64,
    wrong: u64,
    /// The first answer with another status than is wanted.
    first_wrong: Option<String>,
}

/// How much each connection plays.
#[derive(Clone, Copy)]
enum Much {
    Time(Duration),
    Count(usize),
}

struct Answer {
    status: u16,
    closes: bool,
}

struct Connection {
    stream: TcpStream,
    buffer: Vec<u8>,
    end: usize,
}

fn records(bytes: &[u8]) -> Option<BTreeMap<usize, Part>> {
    let mut parts = BTreeMap::<usize, Part>::new();
    let mut rest = bytes;
    while !rest.is_empty() {
        let at = rest.iter().position(|&it| it == b'\n')?;
        let words: Vec<usize> = std::str::from_utf8(&rest[..at]).ok()?.split(' ').map(|it| it.parse().ok()).collect::<Option<_>>()?;
        let [connection, status, is_change, length] = words[..] else { return None };
        let (bytes, more) = rest[at + 1..].split_at_checked(length)?;
        parts.entry(connection).or_default().asked.push(Asked { bytes: bytes.to_vec(), status: status as u16, is_change: is_change == 1 });
        rest = more;
    }
    Some(parts)
}

/// Where the body begins, and the value of `Content-Length`, 0 where there is none. None while the head is not whole.
fn head_of(bytes: &[u8]) -> Option<(usize, usize, bool)> {
    let (mut at, mut length, mut closes) = (0, 0, false);
    loop {
        let line = &bytes[at..at + bytes[at..].iter().position(|&it| it == b'\n')?];
        at += line.len() + 1;
        match line {
            b"\r" => return Some((at, length, closes)),
            _ if line.len() > 16 && line[..16].eq_ignore_ascii_case(b"Content-Length: ") => {
                let digits = line[16..].trim_ascii().iter();
                length = digits.fold(0, |sum, it| sum * 10 + usize::from(it.wrapping_sub(b'0')));
            }
            _ => closes |= line.eq_ignore_ascii_case(b"Connection: close\r"),
        }
    }
}

impl Connection {
    fn open(address: &str) -> io::Result<Connection> {
        let stream = TcpStream::connect(address)?;
        stream.set_nodelay(true)?;
        stream.set_read_timeout(Some(PATIENCE))?;
        Ok(Connection { stream, buffer: vec![0; 1 << 17], end: 0 })
    }

    fn more(&mut self) -> io::Result<()> {
        if self.end == self.buffer.len() {
            return Err(io::Error::other("an answer that is too long"));
        }
        match self.stream.read(&mut self.buffer[self.end..])? {
            0 => Err(io::ErrorKind::UnexpectedEof.into()),
            read => {
                self.end += read;
                Ok(())
            }
        }
    }

    /// Asks, and reads the whole answer, behind which nothing may come.
    fn ask(&mut self, bytes: &[u8]) -> io::Result<Answer> {
        self.end = 0;
        self.stream.write_all(bytes)?;
        let (body, length, closes) = loop {
            self.more()?;
            if let Some(it) = head_of(&self.buffer[..self.end]) {
                break it;
            }
        };
        while self.end < body + length {
            self.more()?;
        }
        let digits = self.buffer.get(9..12).unwrap_or_default();
        if self.end > body + length || !self.buffer.starts_with(b"HTTP/1.1 ") || !digits.iter().all(u8::is_ascii_digit) {
            return Err(io::Error::other("not an answer"));
        }
        Ok(Answer { status: digits.iter().fold(0, |sum, it| sum * 10 + u16::from(it - b'0')), closes })
    }
}

struct Player<'a> {
    address: &'a str,
    connection: Option<Connection>,
    told: Told,
}

impl Player<'_> {
    /// The open connection, or a new one.
    fn connection(&mut self) -> io::Result<&mut Connection> {
        if self.connection.is_none() {
            self.connection = Some(Connection::open(self.address)?);
            self.told.opened += 1;
        }
        self.connection.as_mut().ok_or(io::ErrorKind::NotConnected.into())
    }

    /// Asks once, and again while a change is answered that the policy has moved.
    fn play(&mut self, asked: &Asked) -> io::Result<()> {
        let mut nanos = 0;
        loop {
            let connection = self.connection()?;
            let begun = Instant::now();
            let answer = connection.ask(&asked.bytes)?;
            nanos += begun.elapsed().as_nanos();
            if answer.closes {
                self.connection = None;
            }
            if asked.is_change && answer.status == 409 {
                self.told.moved += 1;
                continue;
            }
            if answer.status != asked.status {
                self.told.wrong += 1;
                let first = String::from_utf8_lossy(&asked.bytes[..asked.bytes.len().min(60)]).replace(['\r', '\n', '"', '\\'], " ");
                self.told.first_wrong.get_or_insert(format!("{} and not {}: {first}", answer.status, asked.status));
            }
            self.told.changes += u64::from(asked.is_change);
            self.told.nanos.push(nanos.min(u32::MAX.into()) as u32);
            return Ok(());
        }
    }
}

fn drive(address: &str, part: &mut Part, much: Much, barrier: &Barrier) -> Told {
    let mut player = Player { address, connection: None, told: Told::default() };
    let _ = player.connection();
    barrier.wait();
    let (begun, mut count) = (Instant::now(), 0);
    while match much {
        Much::Time(it) => begun.elapsed() < it,
        Much::Count(it) => count < it,
    } {
        match player.play(&part.asked[part.next]) {
            Ok(()) => {
                part.next = (part.next + 1) % part.asked.len();
                count += 1;
            }
            Err(fault) => {
                player.told.errors += 1;
                player.told.first_wrong.get_or_insert(fault.to_string());
                player.connection = None;
                if player.told.errors > 100 {
                    break;
                }
                std::thread::sleep(Duration::from_millis(10));
            }
        }
    }
    player.told.took = begun.elapsed();
    // The server's worker is to be free before the next run: it has read the end once it closes too.
    if let Some(mut it) = player.connection.take() {
        let _ = it.stream.shutdown(Shutdown::Write);
        let _ = it.stream.read(&mut it.buffer);
    }
    player.told
}

fn run(address: &str, parts: &mut BTreeMap<usize, Part>, connections: usize, much: Much) -> String {
    let barrier = Barrier::new(connections);
    let mut all = Told::default();
    std::thread::scope(|scope| {
        let barrier = &barrier;
        let playing: Vec<_> = parts.values_mut().take(connections).map(|it| scope.spawn(move || drive(address, it, much, barrier))).collect();
        for it in playing {
            let told = it.join().expect("a thread that ends");
            all.took = all.took.max(told.took);
            all.nanos.extend(told.nanos);
            all.changes += told.changes;
            all.moved += told.moved;
            all.opened += told.opened;
            all.errors += told.errors;
            all.wrong += told.wrong;
            all.first_wrong = all.first_wrong.take().or(told.first_wrong);
        }
    });
    all.nanos.sort_unstable();
    let count = all.nanos.len();
    let at = |share: f64| all.nanos.get((count as f64 * share) as usize).or(all.nanos.last()).copied().unwrap_or(0);
    let (p50, p99, p999, most, took) = (at(0.5), at(0.99), at(0.999), at(1.0), all.took.as_secs_f64());
    let Told { changes, moved, opened, errors, wrong, first_wrong, .. } = all;
    let first = first_wrong.map_or("null".to_string(), |it| format!("\"{it}\""));
    format!(
        "{{\"requests\":{count},\"seconds\":{took:.6},\"p50\":{p50},\"p99\":{p99},\"p999\":{p999},\"max\":{most},\"changes\":{changes},\
         \"moved\":{moved},\"opened\":{opened},\"errors\":{errors},\"wrong\":{wrong},\"first\":{first}}}"
    )
}

fn main() -> io::Result<()> {
    let words: Vec<String> = std::env::args().collect();
    let [_, address, path] = &words[..] else { panic!("usage: serve_load ADDRESS REQUESTS") };
    let mut parts = records(&std::fs::read(path)?).expect("a file of records");
    for line in io::stdin().lines() {
        let line = line?;
        let words: Vec<&str> = line.split(' ').collect();
        let [word, connections, much] = words[..] else { panic!("run or play, and two numbers") };
        let connections = connections.parse::<usize>().expect("a number").min(parts.len());
        let much = match word {
            "run" => Much::Time(Duration::from_secs_f64(much.parse().expect("a number"))),
            _ => Much::Count(much.parse().expect("a number")),
        };
        let told = run(address, &mut parts, connections, much);
        println!("{told}");
        io::stdout().flush()?;
    }
    Ok(())
}
