//! What a request on the state is to do under the lock, worked out before it, and its text, made after it.
use std::sync::Arc;

use crate::answer::{fault, Fault};
use crate::dags::Dags;
use crate::instant;
use crate::json::{self, Value};
use crate::names::is_run_id;
use crate::op::Op;
use crate::plane::{Author, Instance, Plane, RunRow};
use crate::policy::Bearer;
use crate::query::{window, Window};
use crate::rows::{put_dag, put_instance, put_run, put_task, Dates};
use crate::text::put_listing;

pub enum Step<'a> {
    /// A page of DAGs, whose places are known.
    Dags,
    Dag(usize),
    Pause(usize, bool),
    Tasks(usize),
    AllRuns(Window, bool),
    Runs(usize, Window),
    Trigger(usize, Option<Arc<str>>, Option<u64>),
    Run(usize, &'a str),
    Instances(usize, &'a str, Window),
}

/// What is copied under the lock, in buffers that a worker keeps.
#[derive(Default)]
pub struct Copied {
    places: Vec<usize>,
    total: usize,
    /// By place, whether the user reads the DAG.
    reads: Vec<bool>,
    dags: Vec<(usize, bool, Option<u64>)>,
    ids: String,
    /// Runs, with the ends of their ids.
    runs: Vec<(usize, RunRow)>,
    instances: Vec<Instance>,
}

pub fn object(body: &[u8]) -> Result<Value<'_>, Fault> {
    json::parse(body).filter(|it| matches!(it, Value::Object(_))).ok_or_else(|| fault(400, "bad body"))
}

pub fn bad_member(name: &str) -> Fault {
    fault(400, format!("bad member: {name}"))
}

fn date_in(body: &Value<'_>) -> Result<Option<u64>, Fault> {
    for name in ["logical_date", "execution_date"] {
        if let Some(it) = body.get(name) {
            return it.text().and_then(instant::read).map(Some).ok_or_else(|| bad_member(name));
        }
    }
    Ok(None)
}

impl<'a> Step<'a> {
    /// The step of an operation that a user may do; of the DAG in the path the place is known, where it exists.
    pub fn of(op: &'a Op<'a>, place: Option<usize>, bearer: &Bearer<'_>, asked: (&[u8], &[u8]), dags: &Dags, copied: &mut Copied) -> Result<Step<'a>, Fault> {
        let (query, body) = asked;
        let at = || place.ok_or_else(|| fault(404, format!("no such dag: {}", op.dag())));
        Ok(match op {
            Op::Dags => {
                copied.page(window(query)?, bearer, dags);
                Step::Dags
            }
            Op::Pause(_) => {
                let body = object(body)?;
                let Some(&Value::Bool(is_paused)) = body.get("is_paused") else { return Err(bad_member("is_paused")) };
                Step::Pause(at()?, is_paused)
            }
            Op::Tasks(_) => Step::Tasks(at()?),
            Op::AllRuns => {
                let (window, reads_all) = (window(query)?, bearer.reads_all());
                copied.reads.clear();
                if !reads_all {
                    copied.reads.extend((0..dags.rows.len()).map(|it| bearer.reads(it)));
                }
                Step::AllRuns(window, reads_all)
            }
            Op::Runs(_) => {
                let window = window(query)?;
                Step::Runs(at()?, window)
            }
            Op::Trigger(_) => {
                let body = object(body)?;
                let id = match body.get("dag_run_id") {
                    None => None,
                    Some(it) => Some(it.text().filter(|it| is_run_id(it)).map(Arc::from).ok_or_else(|| bad_member("dag_run_id"))?),
                };
                let date = date_in(&body)?;
                match body.get("conf") {
                    None => {}
                    Some(Value::Object(of)) if of.is_empty() => {}
                    Some(_) => return Err(bad_member("conf")),
                }
                Step::Trigger(at()?, id, date)
            }
            Op::Run(_, run) => Step::Run(at()?, run),
            Op::Instances(_, run) => {
                let window = window(query)?;
                Step::Instances(at()?, run, window)
            }
            _ => Step::Dag(at()?),
        })
    }

    pub fn is_change(&self) -> bool {
        matches!(self, Step::Pause(..) | Step::Trigger(..))
    }

    /// Does it under the lock.
    pub fn take(&self, plane: &mut Plane, dags: &Dags, author: Option<Author>, copied: &mut Copied) -> Result<(), Fault> {
        copied.clear();
        match (self, author) {
            (Step::Dags, _) => copied.dags.extend(copied.places.iter().map(|&it| (it, plane.dags[it].is_paused, plane.dags[it].next))),
            (&Step::Dag(place), _) => copied.dag(plane, place),
            (&Step::Pause(place, is_paused), Some(author)) => {
                plane.pause(place, is_paused, author)?;
                copied.dag(plane, place);
            }
            (Step::AllRuns(window, true), _) => {
                copied.total = plane.runs.len();
                window.of(&plane.runs).iter().for_each(|it| copied.run(&it.id, it.row));
            }
            (Step::AllRuns(window, false), _) => copied.runs_read(plane, *window),
            (&Step::Runs(place, window), _) => {
                let runs = &plane.dags[place].runs;
                copied.total = runs.len();
                for &it in window.of(runs) {
                    let run = &plane.runs[it as usize];
                    copied.run(&run.id, run.row);
                }
            }
            (Step::Trigger(place, id, date), Some(author)) => {
                let date = date.unwrap_or(author.when);
                let id = id.clone().unwrap_or_else(|| format!("manual__{}", instant::text_of(date)).into());
                let number = plane.trigger(*place, id, date, dags, author)?;
                let run = &plane.runs[number as usize];
                copied.run(&run.id, run.row);
            }
            (&Step::Run(place, id), _) => {
                let run = &plane.runs[plane.find_run(place, id)? as usize];
                copied.run(&run.id, run.row);
            }
            (&Step::Instances(place, id, window), _) => {
                let run = &plane.runs[plane.find_run(place, id)? as usize];
                copied.instances.extend_from_slice(window.of(&run.instances));
            }
            // The tasks never change, and a change has an author.
            _ => {}
        }
        Ok(())
    }

    /// Writes what was copied.
    pub fn put(&self, dags: &Dags, copied: &Copied, out: &mut Vec<u8>) {
        let mut dates = Dates::default();
        match *self {
            Step::Dags => put_listing(out, "dags", &copied.dags, copied.total, |out, &(it, is_paused, next)| put_dag(out, &dags.rows[it], is_paused, next)),
            Step::Dag(_) | Step::Pause(..) => copied.dags.iter().for_each(|&(it, is_paused, next)| put_dag(out, &dags.rows[it], is_paused, next)),
            Step::Tasks(place) => {
                let dag = &dags.rows[place];
                put_listing(out, "tasks", &dag.tasks, dag.tasks.len(), |out, it| put_task(out, dag, it));
            }
            Step::AllRuns(..) | Step::Runs(..) => {
                put_listing(out, "dag_runs", copied.each_run(), copied.total, |out, (id, row)| put_run(out, id, row, &dags.rows[row.dag as usize], &mut dates));
            }
            Step::Trigger(..) | Step::Run(..) => copied.each_run().for_each(|(id, row)| put_run(out, id, row, &dags.rows[row.dag as usize], &mut dates)),
            Step::Instances(place, run, window) => {
                let dag = &dags.rows[place];
                let page = copied.instances.iter().zip(window.of(&dag.tasks));
                put_listing(out, "task_instances", page, dag.tasks.len(), |out, (it, task)| put_instance(out, it, task, run, dag));
            }
        }
    }
}

impl Copied {
    fn clear(&mut self) {
        self.dags.clear();
        self.ids.clear();
        self.runs.clear();
        self.instances.clear();
    }

    /// The places of a page of the DAGs that a user reads, and how many there are.
    fn page(&mut self, window: Window, bearer: &Bearer<'_>, dags: &Dags) {
        let count = dags.rows.len();
        self.places.clear();
        if bearer.reads_all() {
            self.places.extend((0..count).skip(window.offset).take(window.limit));
            self.total = count;
            return;
        }
        self.total = 0;
        for it in (0..count).filter(|&it| bearer.reads(it)) {
            if self.total >= window.offset && self.places.len() < window.limit {
                self.places.push(it);
            }
            self.total += 1;
        }
    }

    fn dag(&mut self, plane: &Plane, place: usize) {
        self.dags.push((place, plane.dags[place].is_paused, plane.dags[place].next));
    }

    fn run(&mut self, id: &str, row: RunRow) {
        self.ids.push_str(id);
        self.runs.push((self.ids.len(), row));
    }

    /// A page of the runs whose DAGs the user reads, and how many there are.
    fn runs_read(&mut self, plane: &Plane, window: Window) {
        self.total = 0;
        for it in &plane.runs {
            if self.reads[it.row.dag as usize] {
                if self.total >= window.offset && self.runs.len() < window.limit {
                    self.run(&it.id, it.row);
                }
                self.total += 1;
            }
        }
    }

    fn each_run(&self) -> impl Iterator<Item = (&str, &RunRow)> {
        let mut from = 0;
        self.runs.iter().map(move |(end, row)| (&self.ids[std::mem::replace(&mut from, *end)..*end], row))
    }
}
