//! What serve_bench.py compares afplane's server with: the same work as a Rust programmer would write it by hand, with std alone.
//!
//!   serve_baseline serve CONFIG PORT WORKERS
//!
//! Threads that take one connection each. A request's head and body, its token's SHA-256, its user, its permissions and its page are worked out before the
//! lock of the state, under the last version of the policy. Under the lock it is looked whether the version is still the last, rows are copied or changed, and
//! a change gets its entry; the text is made after it, and written at once. What never changes, as DAGs and their tasks, is behind no lock. A change
//! of the policy makes a version that shares with the one before what it leaves.
//!
//! It answers the operations that serve_loads.py plays, byte for byte as afplane does, takes a configuration for right, and has no scheduler.
use std::io::{self, Write};
use std::net::TcpListener;
use std::process::exit;

#[path = "baseline/answer.rs"]
mod answer;
#[path = "serve_baseline/change.rs"]
mod change;
#[path = "serve_baseline/config.rs"]
mod config;
#[path = "serve_baseline/dags.rs"]
mod dags;
#[path = "serve_baseline/head.rs"]
mod head;
#[allow(dead_code)]
#[path = "baseline/instant.rs"]
mod instant;
#[path = "baseline/json.rs"]
mod json;
#[allow(dead_code)]
#[path = "baseline/names.rs"]
mod names;
#[path = "serve_baseline/need.rs"]
mod need;
#[path = "serve_baseline/op.rs"]
mod op;
#[path = "serve_baseline/plane.rs"]
mod plane;
#[path = "serve_baseline/policy.rs"]
mod policy;
#[path = "baseline/query.rs"]
mod query;
#[path = "serve_baseline/role.rs"]
mod role;
#[path = "serve_baseline/rows.rs"]
mod rows;
#[path = "serve_baseline/server.rs"]
mod server;
#[path = "baseline/sha256.rs"]
mod sha256;
#[path = "serve_baseline/site.rs"]
mod site;
#[path = "serve_baseline/step.rs"]
mod step;
#[path = "baseline/text.rs"]
mod text;
#[path = "serve_baseline/users.rs"]
mod users;
#[path = "serve_baseline/worker.rs"]
mod worker;

use worker::Worker;

fn main() -> io::Result<()> {
    let words: Vec<String> = std::env::args().collect();
    let (path, port, workers) = match &words[..] {
        [_, serve, path, port, workers] if serve == "serve" => (path, port.parse().ok(), workers.parse().ok()),
        _ => (&words[0], None::<u16>, None::<usize>),
    };
    let (Some(port), Some(workers)) = (port, workers) else {
        eprintln!("usage: serve_baseline serve CONFIG PORT WORKERS");
        exit(2)
    };
    let server = config::read(&std::fs::read(path)?).expect("a configuration without schedules");
    let listener = TcpListener::bind(("127.0.0.1", port))?;
    let line = format!("listening on {}\n", listener.local_addr()?);
    io::stdout().write_all(line.as_bytes())?;
    std::thread::scope(|scope| {
        for _ in 0..workers {
            scope.spawn(|| {
                let mut worker = Worker::new(&server);
                while let Ok((stream, _)) = listener.accept() {
                    let _ = worker.serve(&stream);
                }
            });
        }
    });
    Ok(())
}
