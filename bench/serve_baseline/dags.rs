//! What never changes of DAGs: their ids, tasks and limits, in order of their ids.
use std::collections::HashMap;

pub struct Task {
    pub id: Box<str>,
    pub pool: Box<str>,
    pub pool_slots: u32,
    pub priority_weight: i32,
    pub retries: u32,
    pub trigger_rule: Box<str>,
    /// Places of the tasks that name this one as upstream.
    pub downstream: Vec<u16>,
}

pub struct Dag {
    pub id: Box<str>,
    pub max_active_runs: u32,
    pub tasks: Vec<Task>,
}

pub struct Dags {
    pub rows: Vec<Dag>,
    places: HashMap<Box<str>, usize>,
}

impl Dags {
    pub fn of(mut rows: Vec<Dag>) -> Dags {
        rows.sort_unstable_by(|a, b| a.id.cmp(&b.id));
        let places = rows.iter().enumerate().map(|(place, it)| (it.id.clone(), place)).collect();
        Dags { rows, places }
    }

    pub fn place(&self, id: &str) -> Option<usize> {
        self.places.get(id).copied()
    }
}
