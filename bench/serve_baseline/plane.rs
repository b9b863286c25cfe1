//! The state: what changes of DAGs, runs with their instances, and the entries of the event logs.
use std::collections::HashMap;
use std::sync::Arc;

use crate::answer::{fault, Fault};
use crate::dags::Dags;
use crate::instant;

const MOST_RUNS: usize = 65_536;

/// Rows of a DAG: whether it is paused, when its next run begins, and places of its runs: in order, by id, by logical date.
#[derive(Default)]
pub struct DagRow {
    pub is_paused: bool,
    pub next: Option<u64>,
    pub runs: Vec<u32>,
    pub by_id: HashMap<Arc<str>, u32>,
    pub by_date: HashMap<u64, u32>,
}

#[derive(Clone, Copy)]
pub struct Instance {
    pub state: Option<&'static str>,
    pub try_number: u32,
    pub start: Option<u64>,
    pub end: Option<u64>,
}

/// What is shown of a run beside its id.
#[derive(Clone, Copy)]
pub struct RunRow {
    /// The place of its DAG.
    pub dag: u32,
    pub run_type: &'static str,
    pub logical_date: u64,
    pub interval: (u64, u64),
    pub start: Option<u64>,
    pub end: Option<u64>,
    pub state: &'static str,
}

pub struct Run {
    pub id: Arc<str>,
    pub row: RunRow,
    pub instances: Box<[Instance]>,
}

/// Who changes something, when, and under which version. Nothing here shows it again, nor the entry.
#[allow(dead_code)]
pub struct Author {
    pub owner: Arc<str>,
    pub version: u32,
    pub when: u64,
}

#[allow(dead_code)]
pub struct Entry {
    author: Author,
    event: &'static str,
    dag: u32,
    run: Option<Arc<str>>,
}

pub struct Plane {
    pub dags: Vec<DagRow>,
    pub runs: Vec<Run>,
    pub entries: Vec<Entry>,
    /// How many entries there may be.
    pub most: usize,
}

impl Plane {
    fn has_room(&self) -> Result<(), Fault> {
        if self.entries.len() < self.most { Ok(()) } else { Err(fault(507, "history full")) }
    }

    pub fn pause(&mut self, place: usize, is_paused: bool, author: Author) -> Result<(), Fault> {
        if self.dags[place].is_paused != is_paused {
            self.has_room()?;
            self.dags[place].is_paused = is_paused;
            self.entries.push(Entry { author, event: "patch_dag", dag: place as u32, run: None });
        }
        Ok(())
    }

    /// Adds a run of so many instances, and gives its place.
    pub fn trigger(&mut self, place: usize, id: Arc<str>, date: u64, dags: &Dags, author: Author) -> Result<u32, Fault> {
        let (number, dag) = (self.runs.len() as u32, &self.dags[place]);
        if dag.by_id.contains_key(&id) {
            return Err(fault(409, format!("run exists: {id}")));
        }
        if dag.by_date.contains_key(&date) {
            return Err(fault(409, format!("date taken: {}", instant::text_of(date))));
        }
        if dag.runs.len() >= MOST_RUNS {
            return Err(fault(409, "too many"));
        }
        self.has_room()?;
        let dag = &mut self.dags[place];
        dag.runs.push(number);
        dag.by_id.insert(id.clone(), number);
        dag.by_date.insert(date, number);
        let instances = vec![Instance { state: None, try_number: 0, start: None, end: None }; dags.rows[place].tasks.len()];
        let row = RunRow { dag: place as u32, run_type: "manual", logical_date: date, interval: (date, date), start: None, end: None, state: "queued" };
        self.runs.push(Run { id: id.clone(), row, instances: instances.into() });
        self.entries.push(Entry { author, event: "trigger_dag_run", dag: place as u32, run: Some(id) });
        Ok(number)
    }

    pub fn find_run(&self, place: usize, id: &str) -> Result<u32, Fault> {
        self.dags[place].by_id.get(id).copied().ok_or_else(|| fault(404, format!("no such run: {id}")))
    }
}
