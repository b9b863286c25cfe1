//! What each operation does to the plane, and the body of its reply.
use std::rc::Rc;

use crate::answer::{fault, Fault};
use crate::audit::{put_entry, Author, Entry};
use crate::instant;
use crate::json::{self, Value};
use crate::names::is_run_id;
use crate::plane::{Dag, Instance, Plane, Run, MOST_RUNS};
use crate::policy::Bearer;
use crate::query::{window, Window};
use crate::routes::Op;
use crate::{changes, pools};
use crate::rows::{put_dag, put_instance, put_run, put_task};
use crate::text::{close_listing, open_listing, put_listing};

/// What is asked, with the query and the body that came with it, and by whom and when.
pub struct Asked<'a> {
    pub op: &'a Op<'a>,
    pub query: &'a [u8],
    pub body: &'a [u8],
    pub author: Author<'a>,
}

/// Does an operation for a user, at a moment, and writes the body of its reply.
pub fn decide(plane: &mut Plane, bearer: &Bearer<'_>, asked: &Asked<'_>, out: &mut Vec<u8>) -> Result<(), Fault> {
    let Asked { op, query, body, author } = asked;
    if let Some(need) = bearer.missing(op.needs(), op.dag(), |it| plane.has_dag(it)) {
        return Err(fault(403, format!("missing permission {}", need.text(op.dag()))));
    }
    match op {
        // It needs no user, and is answered before.
        Op::Version => {}
        Op::Dags => list_dags(plane, bearer, window(query)?, out),
        Op::Dag(dag) => put_dag(out, find_dag(plane, dag)?),
        Op::PauseDag(dag) => pause(plane, dag, body, author, out)?,
        Op::Tasks(dag) => {
            let dag = find_dag(plane, dag)?;
            put_listing(out, "tasks", 0..dag.tasks.len(), dag.tasks.len(), |out, it| put_task(out, dag, it));
        }
        Op::AllRuns => list_all_runs(plane, bearer, window(query)?, out),
        Op::Runs(dag) => list_runs(plane, dag, window(query)?, out)?,
        Op::Trigger(dag) => trigger(plane, dag, body, author, out)?,
        Op::Run(dag, run) => {
            let (dag, run) = find_run(plane, dag, run)?;
            put_run(out, run, dag);
        }
        Op::MarkRun(dag, run) => changes::mark(plane, dag, run, body, author, out)?,
        Op::DeleteRun(dag, run) => changes::delete(plane, dag, run, author)?,
        Op::ClearRun(dag, run) => changes::clear_run(plane, dag, run, body, author, out)?,
        Op::ClearInstances(dag) => changes::clear_instances(plane, dag, body, author, out)?,
        Op::Instances(dag, run) => list_instances(plane, dag, run, window(query)?, out)?,
        Op::Instance(dag, run, task) => show_instance(plane, dag, run, task, out)?,
        Op::Pools => pools::list_pools(plane, window(query)?, out),
        Op::AddPool => pools::add_pool(plane, body, author, out)?,
        Op::Pool(name) => pools::show_pool(plane, name, out)?,
        Op::SetPool(name) => pools::set_pool(plane, name, body, author, out)?,
        Op::DeletePool(name) => pools::delete_pool(plane, name, author)?,
        Op::Variables => pools::list_variables(plane, window(query)?, out),
        Op::AddVariable => pools::add_variable(plane, body, author, out)?,
        Op::Variable(key) => pools::show_variable(plane, key, out)?,
        Op::SetVariable(key) => pools::set_variable(plane, key, body, author, out)?,
        Op::DeleteVariable(key) => pools::delete_variable(plane, key, author)?,
        Op::EventLogs => list_entries(plane, bearer, window(query)?, out),
    }
    Ok(())
}

/// A listing cut to what the user reads: each row is looked at, and those that are shown are counted.
fn put_shown<T>(
    out: &mut Vec<u8>,
    name: &str,
    rows: impl Iterator<Item = T>,
    window: Window,
    shows: impl Fn(&T) -> bool,
    put_row: impl Fn(&mut Vec<u8>, T),
) {
    open_listing(out, name);
    let mut total = 0;
    for row in rows.filter(|it| shows(it)) {
        if total >= window.offset && total - window.offset < window.limit {
            if total > window.offset {
                out.push(b',');
            }
            put_row(out, row);
        }
        total += 1;
    }
    close_listing(out, total);
}

fn list_dags(plane: &Plane, bearer: &Bearer<'_>, window: Window, out: &mut Vec<u8>) {
    if bearer.reads_all() {
        put_listing(out, "dags", window.of(&plane.dags), plane.dags.len(), put_dag);
    } else {
        put_shown(out, "dags", plane.dags.iter(), window, |it| bearer.reads(&it.id), put_dag);
    }
}

fn list_runs(plane: &Plane, dag: &str, window: Window, out: &mut Vec<u8>) -> Result<(), Fault> {
    let dag = find_dag(plane, dag)?;
    put_listing(out, "dag_runs", window.of(&dag.runs), dag.runs.len(), |out, &it| put_run(out, plane.run(it), dag));
    Ok(())
}

fn list_instances(plane: &Plane, dag: &str, run: &str, window: Window, out: &mut Vec<u8>) -> Result<(), Fault> {
    let (dag, run) = find_run(plane, dag, run)?;
    let page = window.of(&run.instances).iter().zip(window.of(&dag.tasks));
    put_listing(out, "task_instances", page, dag.tasks.len(), |out, (it, task)| put_instance(out, it, task, run, dag));
    Ok(())
}

fn show_instance(plane: &Plane, dag: &str, run: &str, task: &str, out: &mut Vec<u8>) -> Result<(), Fault> {
    let (dag, run) = find_run(plane, dag, run)?;
    let place = dag.tasks.iter().position(|it| *it.id == *task);
    let place = place.ok_or_else(|| fault(404, format!("no such task: {task}")))?;
    put_instance(out, &run.instances[place], &dag.tasks[place], run, dag);
    Ok(())
}

fn list_all_runs(plane: &Plane, bearer: &Bearer<'_>, window: Window, out: &mut Vec<u8>) {
    let put_row = |out: &mut Vec<u8>, it: &Run| put_run(out, it, &plane.dags[it.dag]);
    if !bearer.reads_all() {
        let shows = |it: &&Run| bearer.reads(&plane.dags[it.dag].id);
        put_shown(out, "dag_runs", plane.runs.iter().flatten(), window, shows, put_row);
    } else if plane.count == plane.runs.len() {
        put_listing(out, "dag_runs", window.of(&plane.runs).iter().flatten(), plane.count, put_row);
    } else {
        let page = plane.runs.iter().flatten().skip(window.offset).take(window.limit);
        put_listing(out, "dag_runs", page, plane.count, put_row);
    }
}

fn list_entries(plane: &Plane, bearer: &Bearer<'_>, window: Window, out: &mut Vec<u8>) {
    let entries = &plane.audit.entries;
    let put_row = |out: &mut Vec<u8>, (number, it): (usize, &Entry)| put_entry(out, number, it, &plane.dags);
    if bearer.reads_all() {
        let page = window.of(entries).iter().enumerate().map(|(at, it)| (window.offset + at + 1, it));
        put_listing(out, "event_logs", page, entries.len(), put_row);
    } else {
        let shows = |it: &(usize, &Entry)| it.1.dag.is_none_or(|dag| bearer.reads(&plane.dags[dag].id));
        put_shown(out, "event_logs", (1..).zip(entries), window, shows, put_row);
    }
}

pub fn place_of(plane: &Plane, dag: &str) -> Result<usize, Fault> {
    plane.places.get(dag).copied().ok_or_else(|| fault(404, format!("no such dag: {dag}")))
}

fn find_dag<'a>(plane: &'a Plane, dag: &str) -> Result<&'a Dag, Fault> {
    Ok(&plane.dags[place_of(plane, dag)?])
}

/// The place of a run among all, of the DAG that stands at a place.
pub fn place_of_run(plane: &Plane, dag: usize, run: &str) -> Result<usize, Fault> {
    plane.dags[dag].by_id.get(run).copied().ok_or_else(|| fault(404, format!("no such run: {run}")))
}

fn find_run<'a>(plane: &'a Plane, dag: &str, run: &str) -> Result<(&'a Dag, &'a Run), Fault> {
    let dag = place_of(plane, dag)?;
    Ok((&plane.dags[dag], plane.run(place_of_run(plane, dag, run)?)))
}

pub fn object(body: &[u8]) -> Result<Value<'_>, Fault> {
    json::parse(body).filter(|it| matches!(it, Value::Object(_))).ok_or_else(|| fault(400, "bad body"))
}

pub fn bad_member(name: &str) -> Fault {
    fault(400, format!("bad member: {name}"))
}

fn pause(plane: &mut Plane, dag: &str, body: &[u8], author: &Author<'_>, out: &mut Vec<u8>) -> Result<(), Fault> {
    let body = object(body)?;
    let Some(&Value::Bool(is_paused)) = body.get("is_paused") else { return Err(bad_member("is_paused")) };
    let place = place_of(plane, dag)?;
    if plane.dags[place].is_paused != is_paused {
        plane.audit.has_room()?;
        plane.dags[place].is_paused = is_paused;
        plane.audit.add(author, "patch_dag", Some(place), None);
    }
    put_dag(out, &plane.dags[place]);
    Ok(())
}

fn date_in(body: &Value<'_>) -> Result<Option<u64>, Fault> {
    for name in ["logical_date", "execution_date"] {
        if let Some(it) = body.get(name) {
            return it.text().and_then(instant::read).map(Some).ok_or_else(|| bad_member(name));
        }
    }
    Ok(None)
}

fn trigger(plane: &mut Plane, dag: &str, body: &[u8], author: &Author<'_>, out: &mut Vec<u8>) -> Result<(), Fault> {
    let body = object(body)?;
    let id = match body.get("dag_run_id") {
        None => None,
        Some(it) => Some(it.text().filter(|it| is_run_id(it)).ok_or_else(|| bad_member("dag_run_id"))?),
    };
    let date = date_in(&body)?.unwrap_or(author.now);
    match body.get("conf") {
        None => {}
        Some(Value::Object(of)) if of.is_empty() => {}
        Some(_) => return Err(bad_member("conf")),
    }
    let place = place_of(plane, dag)?;
    let id: Rc<str> = match id {
        Some(id) => id.into(),
        None => format!("manual__{}", instant::text_of(date)).into(),
    };
    let dag = &plane.dags[place];
    if dag.by_id.contains_key(&id) {
        return Err(fault(409, format!("run exists: {id}")));
    }
    if dag.by_date.contains_key(&date) {
        return Err(fault(409, format!("date taken: {}", instant::text_of(date))));
    }
    if dag.runs.len() >= MOST_RUNS {
        return Err(fault(409, "too many"));
    }
    plane.audit.has_room()?;
    let (dag, number) = (&mut plane.dags[place], plane.runs.len());
    dag.runs.push(number);
    dag.by_id.insert(id.clone(), number);
    dag.by_date.insert(date, number);
    let instances = dag.tasks.iter().map(|it| Instance::waiting(0, it)).collect();
    let named = Some(id.clone());
    let run = Run { dag: place, id, run_type: "manual", logical_date: date, interval: (date, date), start: None, end: None, state: "queued", instances };
    put_run(out, &run, dag);
    plane.runs.push(Some(run));
    plane.count += 1;
    plane.audit.add(author, "trigger_dag_run", Some(place), named);
    Ok(())
}
