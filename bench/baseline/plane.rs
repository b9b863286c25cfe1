//! DAGs, runs, instances and pools, with their indexes. What a scheduler alone would look at is kept too.
#![allow(dead_code)]

use std::collections::{BTreeMap, HashMap};
use std::rc::Rc;

use crate::audit::Audit;
use crate::graph::Graph;
use crate::instant;

pub const MOST_RUNS: usize = 65_536;
pub const MOST_POOLS: usize = 65_536;
pub const MOST_VARIABLES: usize = 65_536;
pub const MOST_SLOTS: i128 = 1_000_000;

#[derive(Clone, Copy)]
pub enum Schedule {
    Preset(&'static str),
    Seconds(u64),
}

impl Schedule {
    pub fn preset(text: &str) -> Option<Schedule> {
        ["@hourly", "@daily", "@weekly", "@monthly"].into_iter().find(|&it| it == text).map(Schedule::Preset)
    }

    /// The first point at or after the start.
    pub fn first(self, start: u64) -> Option<u64> {
        let day = start.div_ceil(instant::DAY);
        let point = match self {
            Schedule::Seconds(_) => start,
            Schedule::Preset("@hourly") => start.next_multiple_of(3600 * instant::SECOND),
            Schedule::Preset("@daily") => day * instant::DAY,
            // The first day was a Thursday; weeks begin on Sunday.
            Schedule::Preset("@weekly") => ((day + 4).next_multiple_of(7) - 4) * instant::DAY,
            Schedule::Preset(_) => instant::first_of_month(day) * instant::DAY,
        };
        (point <= instant::LAST).then_some(point)
    }
}

pub struct Task {
    pub id: Box<str>,
    pub pool: Rc<str>,
    pub pool_slots: u32,
    pub priority_weight: i32,
    pub retries: u32,
    pub retry_delay: u32,
    pub trigger_rule: &'static str,
    /// How its tries end; past its end they succeed.
    pub script: Option<Vec<&'static str>>,
}

pub struct Dag {
    pub id: Box<str>,
    pub is_paused: bool,
    pub max_active_runs: u32,
    pub schedule: Option<Schedule>,
    pub catchup: bool,
    pub cursor: Option<u64>,
    pub tasks: Vec<Task>,
    pub graph: Graph,
    /// Places of its runs: in order, by id, by logical date.
    pub runs: Vec<usize>,
    pub by_id: HashMap<Rc<str>, usize>,
    pub by_date: HashMap<u64, usize>,
}

pub struct Run {
    /// The place of its DAG.
    pub dag: usize,
    pub id: Rc<str>,
    pub run_type: &'static str,
    pub logical_date: u64,
    pub interval: (u64, u64),
    pub start: Option<u64>,
    pub end: Option<u64>,
    pub state: &'static str,
    /// In the order of the DAG's tasks.
    pub instances: Vec<Instance>,
}

#[derive(Clone, Copy, PartialEq)]
pub struct Instance {
    pub state: Option<&'static str>,
    pub try_number: u32,
    pub max_tries: u64,
    pub start: Option<u64>,
    pub end: Option<u64>,
    pub retry_at: Option<u64>,
}

impl Instance {
    /// The instance of a task that was tried so often and has not begun its next try.
    pub fn waiting(tries: u32, task: &Task) -> Instance {
        Instance { state: None, try_number: tries, max_tries: u64::from(tries) + u64::from(task.retries), start: None, end: None, retry_at: None }
    }
}

pub struct Pool {
    pub slots: u32,
    /// The slots of its instances that are queued, and of those that are running.
    pub queued: u64,
    pub running: u64,
    /// How many tasks name it.
    pub tasks: usize,
}

impl Pool {
    pub fn of(slots: u32) -> Pool {
        Pool { slots, queued: 0, running: 0, tasks: 0 }
    }
}

pub struct Plane {
    /// In order of their ids.
    pub dags: Vec<Dag>,
    pub places: HashMap<Box<str>, usize>,
    /// In order of number, which is the place plus 1; none where the run was deleted.
    pub runs: Vec<Option<Run>>,
    /// How many runs there are.
    pub count: usize,
    pub pools: BTreeMap<Rc<str>, Pool>,
    pub variables: BTreeMap<Box<str>, Box<str>>,
    pub audit: Audit,
}

impl Plane {
    pub fn has_dag(&self, id: &str) -> bool {
        self.places.contains_key(id)
    }

    pub fn run(&self, place: usize) -> &Run {
        self.runs[place].as_ref().expect("a run that an index names")
    }

    /// Puts an instance in the place of one of a run, and counts the slots that it holds in its stead. Whether it is another.
    pub fn set_instance(&mut self, run: usize, place: usize, to: Instance) -> bool {
        let run = self.runs[run].as_mut().expect("a run that an index names");
        let from = std::mem::replace(&mut run.instances[place], to);
        if from.state != to.state {
            let task = &self.dags[run.dag].tasks[place];
            let pool = self.pools.get_mut(&task.pool).expect("a pool that a task names");
            let slots = u64::from(task.pool_slots);
            match from.state {
                Some("queued") => pool.queued -= slots,
                Some("running") => pool.running -= slots,
                _ => {}
            }
            match to.state {
                Some("queued") => pool.queued += slots,
                Some("running") => pool.running += slots,
                _ => {}
            }
        }
        from != to
    }
}
