//! DAGs, runs and instances, as vectors with maps beside them.
use std::collections::HashMap;
use std::rc::Rc;

use crate::graph::Graph;
use crate::instant::{self, DAY, LAST, SECOND};
use State::{Failed, NoState, Queued, Running, Skipped, Success, UpstreamFailed};

pub const MOST_RUNS: usize = 65_536;

#[derive(Clone, Copy, PartialEq)]
pub enum State {
    NoState,
    Scheduled,
    Queued,
    Running,
    UpForRetry,
    Success,
    Failed,
    UpstreamFailed,
    Skipped,
}

impl State {
    pub fn is_finished(self) -> bool {
        matches!(self, Success | Failed | UpstreamFailed | Skipped)
    }
}

#[derive(Clone, Copy)]
pub enum Schedule {
    Hourly,
    Daily,
    Weekly,
    Monthly,
    Seconds(u64),
}

impl Schedule {
    /// The first point from an instant on.
    pub fn next(self, start: u64, from: u64) -> Option<u64> {
        let from = from.max(start);
        let day = from.div_ceil(DAY);
        let point = match self {
            Schedule::Hourly => from.next_multiple_of(3600 * SECOND),
            Schedule::Daily => day * DAY,
            // The first day was a Thursday; weeks begin on Sunday.
            Schedule::Weekly => ((day + 4).next_multiple_of(7) - 4) * DAY,
            Schedule::Monthly => instant::first_of_month(day) * DAY,
            Schedule::Seconds(step) => start + (from - start).next_multiple_of(step * SECOND),
        };
        (point <= LAST).then_some(point)
    }
}

pub struct Task {
    pub id: Box<str>,
    pub pool: Rc<str>,
    pub pool_slots: u32,
    pub weight: i32,
    pub retries: u32,
    pub retry_delay: u32,
    pub rule: &'static str,
}

pub struct Dag {
    pub id: Box<str>,
    pub is_paused: bool,
    pub most_active: u32,
    pub schedule: Option<Schedule>,
    pub start: u64,
    pub catchup: bool,
    pub cursor: Option<u64>,
    pub tasks: Vec<Task>,
    pub graph: Graph,
    /// Places of its runs: in order, by id, by logical date.
    pub runs: Vec<usize>,
    pub by_id: HashMap<Rc<str>, usize>,
    pub by_date: HashMap<u64, usize>,
}

#[derive(Clone, Copy, PartialEq)]
pub struct Instance {
    pub state: State,
    pub tries: u32,
    pub most_tries: u64,
    pub start: Option<u64>,
    pub end: Option<u64>,
    pub retry_at: Option<u64>,
}

pub struct Run {
    /// The place of its DAG.
    pub dag: usize,
    pub id: Rc<str>,
    pub is_manual: bool,
    pub date: u64,
    pub interval: (u64, u64),
    pub state: State,
    pub start: Option<u64>,
    pub end: Option<u64>,
    /// In the order of the DAG's tasks.
    pub instances: Vec<Instance>,
}

impl Run {
    pub fn is_busy(&self) -> bool {
        !self.state.is_finished() || self.instances.iter().any(|it| matches!(it.state, Queued | Running))
    }
}

pub struct Claim {
    pub run: usize,
    pub task: Box<str>,
    pub tries: u32,
}

pub struct Plane {
    /// In order of their ids.
    pub dags: Vec<Dag>,
    pub places: HashMap<Box<str>, usize>,
    /// In order of number, which is the place plus 1.
    pub runs: Vec<Run>,
    /// The places of the busy runs, in order.
    pub busy: Vec<usize>,
    pub pools: HashMap<Rc<str>, u64>,
    /// The ids of the runs that are triggered or looked up next.
    pub names: Vec<String>,
}

impl Plane {
    pub fn add_run(&mut self, place: usize, id: Rc<str>, is_manual: bool, date: u64, end: u64) -> Option<usize> {
        let dag = &mut self.dags[place];
        if dag.by_id.contains_key(&id) || dag.by_date.contains_key(&date) || dag.runs.len() >= MOST_RUNS {
            return None;
        }
        let number = self.runs.len();
        dag.runs.push(number);
        dag.by_id.insert(id.clone(), number);
        dag.by_date.insert(date, number);
        let opened = |it: &Task| Instance { state: NoState, tries: 0, most_tries: it.retries.into(), start: None, end: None, retry_at: None };
        let instances = dag.tasks.iter().map(opened).collect();
        self.runs.push(Run { dag: place, id, is_manual, date, interval: (date, end), state: Queued, start: None, end: None, instances });
        self.busy.push(number);
        Some(number)
    }

    /// Lets the runs go that are busy no more.
    pub fn keep_busy(&mut self) {
        let runs = &self.runs;
        self.busy.retain(|&it| runs[it].is_busy());
    }
}
