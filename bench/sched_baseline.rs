//! What sched_bench.py compares afplane's scheduler with: the same state and the same lines, as a Rust programmer would write them by
//! hand, with std alone: runs in a vector, hash maps by id and by date, and a list of the runs that are busy.
//!
//!   sched_baseline DAGS TASKS RUNS HEAVIER < lines > numbers
//!
//! A tick works in place, and a program out of memory ends; afplane's is worked out first, and done whole or not at all.
#![allow(dead_code)]

use std::collections::HashMap;
use std::io::{self, BufRead, Write};

#[path = "sched_baseline/claims.rs"]
mod claims;
#[path = "baseline/graph.rs"]
mod graph;
#[path = "baseline/instant.rs"]
mod instant;
#[path = "sched_baseline/rows.rs"]
mod rows;
#[path = "sched_baseline/ticks.rs"]
mod ticks;

use instant::SECOND;
use rows::State::{Queued, Running, Success};
use rows::{Dag, Plane, Schedule, Task};

const PAGE: usize = 100;
const SLOTS: u64 = 1_000_000;
/// The second at which the first scheduled point is: 2024-01-01T00:00:00Z.
const START: u64 = 1_704_067_200;

impl Plane {
    fn trigger(&mut self, dag: &str, id: &str, date: u64) -> usize {
        let place = self.places[dag];
        self.add_run(place, id.into(), true, date, date).expect("it is not taken") + 1
    }

    fn end(&mut self) -> u64 {
        let busy = std::mem::take(&mut self.busy);
        for &it in &busy {
            self.end_run(it, 0);
        }
        busy.len() as u64
    }

    fn end_run(&mut self, it: usize, at: u64) {
        let run = &mut self.runs[it];
        (run.state, run.start, run.end) = (Success, Some(at), Some(at));
        for it in &mut run.instances {
            (it.state, it.end) = (Success, Some(at));
        }
    }

    fn digest(&self) -> u64 {
        let with = |sum: u64, it: u64| sum.wrapping_mul(1_000_003).wrapping_add(it);
        let mut sum = 0;
        for &it in &self.busy {
            let run = &self.runs[it];
            let state = match run.state {
                Queued => 0,
                Running => 1,
                Success => 2,
                _ => 3,
            };
            sum = with(with(sum, it as u64 + 1), state);
            sum = run.id.bytes().fold(sum, |sum, byte| with(sum, byte.into()));
            for it in &run.instances {
                for state in [Queued, Running, Success] {
                    sum = with(sum, (it.state == state).into());
                }
            }
        }
        with(sum, self.runs.len() as u64 + 1)
    }

    /// The numbers and dates of the runs of these names.
    fn find(&self, dag: usize) -> u64 {
        let dag = &self.dags[self.places[&*dag_id(dag)]];
        let place = |it: &String| dag.by_id[it.as_str()];
        self.names.iter().map(place).map(|it| it as u64 + 1 + self.runs[it].date).sum()
    }

    /// What is told of a page of the runs of a DAG.
    fn page(&self, dag: usize, from: usize) -> u64 {
        let runs = &self.dags[self.places[&*dag_id(dag)]].runs;
        let rows = runs[from % runs.len()..].iter().take(PAGE);
        rows.map(|&it| it as u64 + 1 + self.runs[it].id.len() as u64).sum()
    }

    /// A run of each of these names, a second after another.
    fn trigger_all(&mut self, dag: usize, first: u64) -> u64 {
        let (dag, names) = (dag_id(dag), std::mem::take(&mut self.names));
        let sum = names.iter().zip(first..).map(|(it, second)| self.trigger(&dag, it, second * SECOND) as u64).sum();
        self.names = names;
        sum
    }

    /// So many claims, each with its report.
    fn work(&mut self, now: u64, count: u64) -> u64 {
        let mut sum = 0;
        for _ in 0..count {
            let Some(claim) = self.claim(now) else { break };
            sum += claim.run as u64 + 1;
            assert!(self.report(&claim, Success, now));
        }
        sum
    }

    fn play(&mut self, line: &str) -> u64 {
        let mut words = line.split(' ');
        let verb = words.next().unwrap_or("");
        let mut next = || words.next().and_then(|it| it.parse::<u64>().ok()).unwrap_or(0);
        let (first, second, third, fourth) = (next(), next(), next(), next());
        match verb {
            "tick" => (0..second).map(|_| u64::from(self.tick(first * SECOND))).sum(),
            "end" => self.end(),
            "names" => {
                self.names = (0..fourth).map(|it| run_id(if it == 0 { first } else { (first + it * second) % third })).collect();
                fourth
            }
            "trigger" => self.trigger_all(first as usize, second),
            "find" => self.find(first as usize),
            "pages" => (0..fourth).map(|it| self.page(first as usize, (second + it * third) as usize)).sum(),
            "claim" => (0..second).filter_map(|_| self.claim(first * SECOND)).map(|it| it.run as u64 + 1).sum(),
            "work" => self.work(first * SECOND, second),
            // afplane's runs are listed by DAG when memory is reserved; here they are when they are added
            "list" => 0,
            "digest" => self.digest(),
            _ => panic!("no such word: {verb}"),
        }
    }
}

fn dag_id(dag: usize) -> String {
    format!("team_pipeline_{dag:04}")
}

fn run_id(run: u64) -> String {
    format!("scheduled__2024-01-01T00:00:00+00:00_{run}")
}

fn dag(place: usize, tasks: usize, weight: i32, is_paused: bool) -> Dag {
    let ids: Vec<String> = (0..tasks).map(|it| format!("task_{it:02}")).collect();
    let ids: Vec<&str> = ids.iter().map(String::as_str).collect();
    let task = |it: &&str| Task { id: (*it).into(), pool: "default_pool".into(), pool_slots: 1, weight, retries: 0, retry_delay: 300, rule: "all_success" };
    let (schedule, start) = (Schedule::Daily, START * SECOND);
    Dag {
        id: dag_id(place).into(),
        is_paused,
        most_active: 16,
        schedule: Some(schedule),
        start,
        catchup: true,
        cursor: schedule.next(start, start),
        tasks: ids.iter().map(task).collect(),
        graph: graph::graph(&ids, &vec![Vec::new(); tasks]).expect("no cycle"),
        runs: Vec::new(),
        by_id: HashMap::new(),
        by_date: HashMap::new(),
    }
}

fn filled(dags: usize, tasks: usize, runs: u64, heavier: usize) -> Plane {
    let ids: Vec<String> = (0..dags).map(dag_id).collect();
    let mut plane = Plane {
        dags: (0..dags).map(|it| dag(it, tasks, 1, false)).chain((0..heavier).map(|it| dag(dags + it, 1, 2, true))).collect(),
        places: ids.iter().enumerate().map(|(place, id)| (id.as_str().into(), place)).collect(),
        runs: Vec::new(),
        busy: Vec::new(),
        pools: HashMap::from([("default_pool".into(), SLOTS)]),
        names: Vec::new(),
    };
    for run in 0..runs {
        let id = run_id(run);
        for dag in &ids {
            let number = plane.trigger(dag, &id, run * SECOND);
            plane.end_run(number - 1, run * SECOND);
        }
        plane.busy.clear();
    }
    plane
}

fn main() -> io::Result<()> {
    let words: Vec<u64> = std::env::args().skip(1).map(|it| it.parse().expect("a number")).collect();
    let [dags, tasks, runs, heavier] = words[..] else { panic!("usage: sched_baseline DAGS TASKS RUNS HEAVIER") };
    let mut plane = filled(dags as usize, tasks as usize, runs, heavier as usize);
    let mut output = io::stdout();
    for line in io::stdin().lock().lines() {
        let number = plane.play(&line?);
        output.write_all(format!("{number}\n").as_bytes())?;
        output.flush()?;
    }
    Ok(())
}
