//! How rows are shown: compact JSON, members in byte order.
use std::ops::Range;

use crate::dags::{Dag, Task};
use crate::need::{ACTIONS, RESOURCES};
use crate::plane::{Instance, RunRow};
use crate::policy::{Bearer, Policy};
use crate::role::Role;
use crate::text::{put, put_date, put_name, put_number, put_signed};
use crate::users::User;
use crate::{dags::Dags, instant};

pub fn put_dag(out: &mut Vec<u8>, dag: &Dag, is_paused: bool, next: Option<u64>) {
    put(out, "{\"dag_id\":\"");
    put(out, &dag.id);
    put(out, if is_paused { "\",\"is_paused\":true,\"max_active_runs\":" } else { "\",\"is_paused\":false,\"max_active_runs\":" });
    put_number(out, dag.max_active_runs.into());
    put(out, ",\"next_dagrun\":");
    put_date(out, next);
    put(out, ",\"schedule_interval\":null}");
}

pub fn put_task(out: &mut Vec<u8>, dag: &Dag, task: &Task) {
    put(out, "{\"downstream_task_ids\":[");
    for (at, &it) in task.downstream.iter().enumerate() {
        put(out, if at > 0 { ",\"" } else { "\"" });
        put(out, &dag.tasks[usize::from(it)].id);
        out.push(b'"');
    }
    put(out, "],\"pool\":");
    put_name(out, &task.pool);
    put(out, ",\"pool_slots\":");
    put_number(out, task.pool_slots.into());
    put(out, ",\"priority_weight\":");
    put_signed(out, task.priority_weight);
    put(out, ",\"retries\":");
    put_number(out, task.retries.into());
    put(out, ",\"task_id\":\"");
    put(out, &task.id);
    put(out, "\",\"trigger_rule\":\"");
    put(out, &task.trigger_rule);
    put(out, "\"}");
}

/// The date that was written last: where it comes again, its text is copied.
#[derive(Default)]
pub struct Dates {
    last: Option<u64>,
    /// Where its text stands.
    text: Range<usize>,
}

impl Dates {
    fn put(&mut self, out: &mut Vec<u8>, date: u64) {
        if self.last == Some(date) {
            return out.extend_from_within(self.text.clone());
        }
        let from = out.len();
        instant::put(out, date);
        (self.last, self.text) = (Some(date), from..out.len());
    }
}

pub fn put_run(out: &mut Vec<u8>, id: &str, run: &RunRow, dag: &Dag, dates: &mut Dates) {
    put(out, "{\"dag_id\":\"");
    put(out, &dag.id);
    put(out, "\",\"dag_run_id\":\"");
    put(out, id);
    put(out, "\",\"data_interval_end\":\"");
    dates.put(out, run.interval.1);
    put(out, "\",\"data_interval_start\":\"");
    dates.put(out, run.interval.0);
    put(out, "\",\"end_date\":");
    put_date(out, run.end);
    put(out, ",\"logical_date\":\"");
    dates.put(out, run.logical_date);
    put(out, "\",\"run_type\":\"");
    put(out, run.run_type);
    put(out, "\",\"start_date\":");
    put_date(out, run.start);
    put(out, ",\"state\":\"");
    put(out, run.state);
    put(out, "\"}");
}

pub fn put_instance(out: &mut Vec<u8>, instance: &Instance, task: &Task, run: &str, dag: &Dag) {
    put(out, "{\"dag_id\":\"");
    put(out, &dag.id);
    put(out, "\",\"dag_run_id\":\"");
    put(out, run);
    put(out, "\",\"end_date\":");
    put_date(out, instance.end);
    put(out, ",\"pool\":");
    put_name(out, &task.pool);
    put(out, ",\"pool_slots\":");
    put_number(out, task.pool_slots.into());
    put(out, ",\"priority_weight\":");
    put_signed(out, task.priority_weight);
    put(out, ",\"start_date\":");
    put_date(out, instance.start);
    put(out, ",\"state\":");
    match instance.state {
        Some(state) => put_name(out, state),
        None => put(out, "null"),
    }
    put(out, ",\"task_id\":\"");
    put(out, &task.id);
    put(out, "\",\"try_number\":");
    put_number(out, instance.try_number.into());
    out.push(b'}');
}

pub fn put_user(out: &mut Vec<u8>, user: &User, policy: &Policy) {
    put(out, "{\"roles\":[");
    for (at, &it) in user.roles.iter().enumerate() {
        put(out, if at > 0 { ",{\"name\":" } else { "{\"name\":" });
        put_name(out, &policy.role(it).name);
        out.push(b'}');
    }
    put(out, "],\"username\":");
    put_name(out, &user.name);
    out.push(b'}');
}

/// Each permission of a role, in order: its action and its resource, or its DAG with a prefix.
fn each_permission<'r>(role: &'r Role, mut tell: impl FnMut(&'static str, &str, &'r str)) {
    let plain = role.plain.iter().enumerate().map(|(at, &it)| ("", RESOURCES[at], it));
    for (prefix, name, actions) in plain.chain(role.dags.iter().map(|(dag, &it)| ("DAG:", &**dag, it))) {
        ACTIONS.iter().filter(|it| actions & it.0 != 0).for_each(|it| tell(it.1, prefix, name));
    }
}

pub fn put_role(out: &mut Vec<u8>, role: &Role) {
    put(out, "{\"actions\":[");
    let mut is_first = true;
    each_permission(role, |action, prefix, name| {
        put(out, if is_first { "{\"action\":{\"name\":\"" } else { ",{\"action\":{\"name\":\"" });
        is_first = false;
        put(out, action);
        put(out, "\"},\"resource\":{\"name\":\"");
        put(out, prefix);
        put(out, name);
        put(out, "\"}}");
    });
    put(out, "],\"name\":");
    put_name(out, &role.name);
    out.push(b'}');
}

pub fn put_me(out: &mut Vec<u8>, bearer: &Bearer<'_>, dags: &Dags) {
    put(out, "{\"permissions\":[");
    let mut is_first = true;
    each_permission(&bearer.may(dags), |action, prefix, name| {
        put(out, if is_first { "\"" } else { ",\"" });
        is_first = false;
        put(out, prefix);
        put(out, name);
        put(out, ".");
        put(out, action);
        put(out, "\"");
    });
    put(out, "],\"policy_version\":");
    put_number(out, bearer.policy.version.into());
    put(out, ",\"roles\":[");
    for (at, &it) in bearer.user.roles.iter().enumerate() {
        if at > 0 {
            out.push(b',');
        }
        put_name(out, &bearer.policy.role(it).name);
    }
    put(out, "],\"username\":");
    put_name(out, &bearer.user.name);
    out.push(b'}');
}
