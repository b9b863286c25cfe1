//! What ledger_bench.py compares afplane's ledger with: the plain program's operations, on the same lines.
//!
//!   ledger_baseline DAGS TASKS LIMIT < lines > numbers
#![allow(dead_code)]

use std::io::{self, BufRead, Write};

#[path = "baseline/answer.rs"]
mod answer;
#[path = "baseline/audit.rs"]
mod audit;
#[path = "baseline/changes.rs"]
mod changes;
#[path = "baseline/config.rs"]
mod config;
#[path = "baseline/graph.rs"]
mod graph;
#[path = "baseline/instant.rs"]
mod instant;
#[path = "baseline/json.rs"]
mod json;
#[path = "baseline/names.rs"]
mod names;
#[path = "baseline/operations.rs"]
mod operations;
#[path = "baseline/plane.rs"]
mod plane;
#[path = "baseline/policy.rs"]
mod policy;
#[path = "baseline/pools.rs"]
mod pools;
#[path = "baseline/query.rs"]
mod query;
#[path = "baseline/routes.rs"]
mod routes;
#[path = "baseline/rows.rs"]
mod rows;
#[path = "baseline/sha256.rs"]
mod sha256;

use answer::put_fault;
use audit::Author;
use operations::Asked;
use plane::Plane;
use policy::Policy;
use routes::Op;

/// 2024-01-01T00:00:00Z.
const NOW: u64 = 1_704_067_200 * instant::SECOND;
const TOKEN: &[u8] = b"admin";
const TOKEN_SHA256: &str = "8c6976e5b5410415bde908bd4dee15dfb167a9c873fc4bb8a81f6f2ab448a918";

struct Player {
    policy: Policy,
    plane: Plane,
    /// The body of a reply.
    out: Vec<u8>,
    dags: Vec<String>,
    /// The ids of runs: those that are there, and those that are triggered next. The n-th is of the n-th DAG, going round.
    runs: Vec<String>,
    /// How many of them are there.
    count: usize,
    /// Whether answers depend on each byte that is told, or on how many there are.
    is_whole: bool,
}

fn with(sum: u64, number: u64) -> u64 {
    sum.wrapping_mul(1_000_003).wrapping_add(number)
}

/// Answers an operation. A number of what is told: of its status, the number of entries, and its bytes or their number.
fn ask(policy: &Policy, plane: &mut Plane, out: &mut Vec<u8>, is_whole: bool, (op, query, body): (Op<'_>, &str, &str)) -> u64 {
    out.clear();
    let bearer = policy.bearer(TOKEN).expect("adam");
    let author = Author { name: bearer.name(), version: policy.version, now: NOW };
    let asked = Asked { op: &op, query: query.as_bytes(), body: body.as_bytes(), author };
    let status = match operations::decide(plane, &bearer, &asked, out) {
        Ok(()) => 200,
        Err(fault) => {
            put_fault(out, &fault);
            fault.status.into()
        }
    };
    let sum = with(status, plane.audit.entries.len() as u64);
    with(sum, if is_whole { out.iter().fold(0, |sum, &it| with(sum, it.into())) } else { out.len() as u64 })
}

fn pause_body(is_paused: bool) -> &'static str {
    if is_paused { "{\"is_paused\":true}" } else { "{\"is_paused\":false}" }
}

fn mark_body(kind: u64) -> &'static str {
    ["{\"state\":\"success\"}", "{\"state\":\"failed\"}", "{\"state\":\"queued\"}"][kind as usize % 3]
}

impl Player {
    fn opened(dags: usize, tasks: usize, limit: usize) -> Player {
        let rows = |count: usize, row: &dyn Fn(usize) -> String| (0..count).map(row).collect::<Vec<_>>().join(",");
        let tasks = rows(tasks, &|it| format!("{{\"task_id\":\"task_{it}\"}}"));
        let text = format!(
            "{{\"users\":[{{\"username\":\"adam\",\"roles\":[{{\"name\":\"Admin\"}}],\"token_sha256\":\"{TOKEN_SHA256}\"}}],\"variables\":[],\"history_limit\":{limit},\"dags\":[{}]}}",
            rows(dags, &|it| format!("{{\"dag_id\":\"dag_{it:04}\",\"tasks\":[{tasks}]}}")),
        );
        let (policy, plane) = config::read(text.as_bytes()).expect("a configuration");
        let dags = (0..dags).map(|it| format!("dag_{it:04}")).collect();
        let mut player = Player { policy, plane, out: Vec::new(), dags, runs: Vec::new(), count: 0, is_whole: false };
        player.ask((Op::AddVariable, "", "{\"key\":\"key\",\"value\":\"\"}"));
        player
    }

    fn ask(&mut self, asked: (Op<'_>, &str, &str)) -> u64 {
        ask(&self.policy, &mut self.plane, &mut self.out, self.is_whole, asked)
    }

    fn trigger(&mut self) -> u64 {
        let (place, id) = (self.count, &self.runs[self.count]);
        let (hour, minute, second) = (place / 3600, place / 60 % 60, place % 60);
        let body = format!("{{\"dag_run_id\":\"{id}\",\"logical_date\":\"2023-01-01T{hour:02}:{minute:02}:{second:02}Z\"}}");
        self.count += 1;
        let op = Op::Trigger(self.dags[place % self.dags.len()].as_str().into());
        ask(&self.policy, &mut self.plane, &mut self.out, self.is_whole, (op, "", &body))
    }

    fn pages(&mut self, dag: Option<u64>, from: u64, step: u64, times: u64) -> u64 {
        let (mut sum, mut from) = (0, from);
        for _ in 0..times {
            let query = format!("limit=100&offset={from}");
            let op = match dag {
                Some(dag) => Op::Runs(self.dags[dag as usize % self.dags.len()].as_str().into()),
                None => Op::AllRuns,
            };
            sum = with(sum, ask(&self.policy, &mut self.plane, &mut self.out, self.is_whole, (op, &query, "")));
            from = (from + step) % self.count as u64;
        }
        sum
    }

    fn logs(&mut self, from: u64, step: u64, times: u64) -> u64 {
        let (mut sum, mut from) = (0, from);
        for _ in 0..times {
            let query = format!("limit=100&offset={from}");
            sum = with(sum, self.ask((Op::EventLogs, &query, "")));
            from = (from + step) % self.plane.audit.entries.len() as u64;
        }
        sum
    }

    fn pause(&mut self, turn: u64) -> u64 {
        let count = self.dags.len() as u64;
        self.set_paused(turn % count, turn / count % 2 == 0)
    }

    fn set_paused(&mut self, dag: u64, is_paused: bool) -> u64 {
        let op = Op::PauseDag(self.dags[dag as usize % self.dags.len()].as_str().into());
        ask(&self.policy, &mut self.plane, &mut self.out, self.is_whole, (op, "", pause_body(is_paused)))
    }

    fn mark(&mut self, place: u64, kind: u64) -> u64 {
        let place = place as usize % self.count;
        let op = Op::MarkRun(self.dags[place % self.dags.len()].as_str().into(), self.runs[place].as_str().into());
        ask(&self.policy, &mut self.plane, &mut self.out, self.is_whole, (op, "", mark_body(kind)))
    }

    fn set_text(&mut self, number: u64) -> u64 {
        let body = format!("{{\"value\":\"text_{number:08}\"}}");
        self.ask((Op::SetVariable("key".into()), "", &body))
    }

    fn mixed(&mut self, turn: u64) -> u64 {
        let (kind, round) = (turn % 25, turn / 25);
        let place = if kind < 20 { turn } else { round }.wrapping_mul(104_729) as usize % self.count;
        let (dag, run) = (self.dags[place % self.dags.len()].as_str().into(), self.runs[place].as_str());
        let body;
        let asked = match kind {
            20 => return self.set_paused(round / 2, round % 2 == 0),
            21 => return self.trigger(),
            22 => return self.mark(place as u64, round),
            23 => {
                body = format!("{{\"dag_run_id\":\"{run}\",\"dry_run\":false,\"only_failed\":false}}");
                (Op::ClearInstances(dag), "", body.as_str())
            }
            24 => return self.set_text(round),
            _ => match kind % 5 {
                0 => (Op::Dag(dag), "", ""),
                1 => (Op::Runs(dag), "limit=100&offset=0", ""),
                2 => (Op::Run(dag, run.into()), "", ""),
                3 => (Op::Instances(dag, run.into()), "", ""),
                _ => (Op::Pools, "", ""),
            },
        };
        ask(&self.policy, &mut self.plane, &mut self.out, self.is_whole, asked)
    }

    fn play(&mut self, line: &str) -> u64 {
        let mut words = line.split(' ');
        let verb = words.next().unwrap_or_default();
        let mut next = || words.next().map_or(0, |it| it.parse::<u64>().expect("a number"));
        let (first, second, third, fourth) = (next(), next(), next(), next());
        let turns = first..first + second;
        match verb {
            "whole" => {
                self.is_whole = first == 1;
                0
            }
            "names" => {
                self.runs.extend((self.runs.len()..first as usize).map(|it| format!("run_{it:05}")));
                first
            }
            "fill" => (0..first).fold(0, |sum, _| with(sum, self.trigger())),
            "runs" => self.pages(Some(first), second, third, fourth),
            "all" => self.pages(None, first, second, third),
            "logs" => self.logs(first, second, third),
            "pause" => turns.fold(0, |sum, it| with(sum, self.pause(it))),
            "mark" => turns.fold(0, |sum, it| with(sum, self.mark(it, it / self.count as u64 % 2 + 1))),
            "set" => turns.fold(0, |sum, it| with(sum, self.set_text(it))),
            "mix" => turns.fold(0, |sum, it| with(sum, self.mixed(it))),
            _ => panic!("no such word: {verb}"),
        }
    }
}

fn main() -> io::Result<()> {
    let words: Vec<usize> = std::env::args().skip(1).map(|it| it.parse().expect("a number")).collect();
    let [dags, tasks, limit] = words[..] else { panic!("usage: ledger_baseline DAGS TASKS LIMIT") };
    let mut player = Player::opened(dags, tasks, limit);
    let mut output = io::stdout();
    for line in io::stdin().lock().lines() {
        let number = player.play(&line?);
        output.write_all(format!("{number}\n").as_bytes())?;
        output.flush()?;
    }
    Ok(())
}
