//! Marking, deleting and clearing of runs and of their instances.
use std::collections::HashSet;

use crate::answer::{fault, Fault};
use crate::audit::Author;
use crate::instant;
use crate::json::Value;
use crate::names::{is_id, is_run_id};
use crate::operations::{bad_member, object, place_of, place_of_run};
use crate::plane::{Instance, Plane};
use crate::rows::{put_chosen, put_run};
use crate::text::put;

fn truth(body: &Value<'_>, name: &str, default: bool) -> Result<bool, Fault> {
    match body.get(name) {
        None => Ok(default),
        Some(&Value::Bool(it)) => Ok(it),
        Some(_) => Err(bad_member(name)),
    }
}

fn date(body: &Value<'_>, name: &str) -> Result<Option<u64>, Fault> {
    body.get(name).map(|it| it.text().and_then(instant::read).ok_or_else(|| bad_member(name))).transpose()
}

fn is_finished(state: Option<&str>) -> bool {
    matches!(state, Some("success" | "failed" | "skipped" | "upstream_failed"))
}

/// An instance once its run is marked: a running one fails with it, and one that has not begun is skipped.
fn marked(instance: Instance, to: &'static str, now: u64) -> Instance {
    let to = match to {
        "failed" if is_finished(instance.state) => instance.state,
        "failed" if instance.state != Some("running") => Some("skipped"),
        _ => Some(to),
    };
    if instance.state == to { instance } else { Instance { state: to, end: Some(now), retry_at: None, ..instance } }
}

pub fn mark(plane: &mut Plane, dag: &str, run: &str, body: &[u8], author: &Author<'_>, out: &mut Vec<u8>) -> Result<(), Fault> {
    let body = object(body)?;
    let word = body.get("state").and_then(Value::text);
    let to = ["success", "failed", "queued"].into_iter().find(|&it| Some(it) == word).ok_or_else(|| bad_member("state"))?;
    let dag = place_of(plane, dag)?;
    let (place, now) = (place_of_run(plane, dag, run)?, author.now);
    let run = plane.run(place);
    let changes = run.state != to || to != "queued" && run.instances.iter().any(|it| marked(*it, to, now) != *it);
    if changes {
        plane.audit.has_room()?;
        let run = plane.runs[place].as_mut().expect("it was found");
        let id = run.id.clone();
        if run.state != to {
            (run.start, run.end) = if to == "queued" { (None, None) } else { (run.start, Some(now)) };
            run.state = to;
        }
        if to != "queued" {
            for it in 0..plane.dags[dag].tasks.len() {
                let instance = plane.run(place).instances[it];
                plane.set_instance(place, it, marked(instance, to, now));
            }
        }
        plane.audit.add(author, "patch_dag_run", Some(dag), Some(id));
    }
    put_run(out, plane.run(place), &plane.dags[dag]);
    Ok(())
}

pub fn delete(plane: &mut Plane, dag: &str, run: &str, author: &Author<'_>) -> Result<(), Fault> {
    let at = place_of(plane, dag)?;
    let place = place_of_run(plane, at, run)?;
    plane.audit.has_room()?;
    for it in 0..plane.dags[at].tasks.len() {
        let gone = Instance { state: None, ..plane.run(place).instances[it] };
        plane.set_instance(place, it, gone);
    }
    let run = plane.runs[place].take().expect("it was found");
    let dag = &mut plane.dags[at];
    dag.by_id.remove(&run.id);
    dag.by_date.remove(&run.logical_date);
    if let Ok(at) = dag.runs.binary_search(&place) {
        dag.runs.remove(at);
    }
    plane.count -= 1;
    plane.audit.add(author, "delete_dag_run", Some(at), Some(run.id));
    Ok(())
}

/// Which instances of a DAG a clear is of.
struct Chosen {
    run: Option<usize>,
    /// Places of tasks; none for all.
    tasks: Option<HashSet<usize>>,
    only_failed: bool,
    start: u64,
    end: u64,
}

impl Chosen {
    fn takes(&self, place: usize, instance: &Instance) -> bool {
        self.tasks.as_ref().is_none_or(|it| it.contains(&place))
            && (!self.only_failed || matches!(instance.state, Some("failed" | "upstream_failed")))
    }
}

/// What is recorded of a clear that is no dry run.
type Done<'a> = (&'a Author<'a>, &'static str);

/// Clears the chosen instances, unless it is a dry run, and writes which they are.
fn clear(plane: &mut Plane, dag: usize, chosen: &Chosen, done: Option<Done<'_>>, out: &mut Vec<u8>) -> Result<(), Fault> {
    let all = match chosen.run {
        Some(run) => vec![run],
        None => plane.dags[dag].runs.clone(),
    };
    let mut rows = Vec::new();
    let mut changes = false;
    put(out, "{\"task_instances\":[");
    for place in all {
        let (run, dag) = (plane.run(place), &plane.dags[dag]);
        if !(chosen.start..=chosen.end).contains(&run.logical_date) {
            continue;
        }
        let before = rows.len();
        for (it, (instance, task)) in run.instances.iter().zip(&dag.tasks).enumerate() {
            if chosen.takes(it, instance) {
                if !rows.is_empty() {
                    out.push(b',');
                }
                put_chosen(out, task, run, dag);
                changes |= Instance::waiting(instance.try_number, task) != *instance;
                rows.push((place, it));
            }
        }
        changes |= rows.len() > before && matches!(run.state, "success" | "failed");
    }
    put(out, "]}");
    let Some((author, event)) = done.filter(|_| changes) else { return Ok(()) };
    plane.audit.has_room().inspect_err(|_| out.clear())?;
    for (place, it) in rows {
        let tries = plane.run(place).instances[it].try_number;
        let cleared = Instance::waiting(tries, &plane.dags[dag].tasks[it]);
        plane.set_instance(place, it, cleared);
        let run = plane.runs[place].as_mut().expect("it was found");
        if matches!(run.state, "success" | "failed") {
            (run.state, run.start, run.end) = ("queued", None, None);
        }
    }
    let run = chosen.run.map(|it| plane.run(it).id.clone());
    plane.audit.add(author, event, Some(dag), run);
    Ok(())
}

pub fn clear_run(plane: &mut Plane, dag: &str, run: &str, body: &[u8], author: &Author<'_>, out: &mut Vec<u8>) -> Result<(), Fault> {
    let dry_run = truth(&object(body)?, "dry_run", true)?;
    let dag = place_of(plane, dag)?;
    let run = Some(place_of_run(plane, dag, run)?);
    clear(plane, dag, &Chosen { run, tasks: None, only_failed: false, start: 0, end: u64::MAX }, (!dry_run).then_some((author, "clear_dag_run")), out)
}

pub fn clear_instances(plane: &mut Plane, dag: &str, body: &[u8], author: &Author<'_>, out: &mut Vec<u8>) -> Result<(), Fault> {
    let body = object(body)?;
    let (dry_run, only_failed) = (truth(&body, "dry_run", true)?, truth(&body, "only_failed", true)?);
    let named = |it: &Value<'_>, is_name: fn(&str) -> bool| it.text().is_some_and(is_name);
    let tasks = match body.get("task_ids") {
        None => None,
        Some(it) => Some(it.list().filter(|of| of.iter().all(|it| named(it, is_id))).ok_or_else(|| bad_member("task_ids"))?),
    };
    let run = match body.get("dag_run_id") {
        None => None,
        Some(it) => Some(it.text().filter(|it| is_run_id(it)).ok_or_else(|| bad_member("dag_run_id"))?),
    };
    let (start, end) = (date(&body, "start_date")?, date(&body, "end_date")?);
    let place = place_of(plane, dag)?;
    let run = run.map(|it| place_of_run(plane, place, it)).transpose()?;
    let dag = &plane.dags[place];
    let task = |it: &Value<'_>| {
        let id = it.text().unwrap_or_default();
        dag.tasks.iter().position(|it| *it.id == *id).ok_or_else(|| fault(404, format!("no such task: {id}")))
    };
    let tasks = tasks.map(|it| it.iter().map(task).collect()).transpose()?;
    let chosen = Chosen { run, tasks, only_failed, start: start.unwrap_or(0), end: end.unwrap_or(u64::MAX) };
    clear(plane, place, &chosen, (!dry_run).then_some((author, "clear_task_instances")), out)
}
