//! How DAGs, tasks, runs and instances are shown: compact JSON, members in byte order.
use crate::instant;
use crate::plane::{Dag, Instance, Pool, Run, Schedule, Task};
use crate::text::{put, put_date, put_name, put_number, put_signed};

pub fn put_dag(out: &mut Vec<u8>, dag: &Dag) {
    put(out, "{\"dag_id\":\"");
    put(out, &dag.id);
    put(out, if dag.is_paused { "\",\"is_paused\":true" } else { "\",\"is_paused\":false" });
    put(out, ",\"max_active_runs\":");
    put_number(out, dag.max_active_runs.into());
    put(out, ",\"next_dagrun\":");
    put_date(out, dag.cursor);
    put(out, ",\"schedule_interval\":");
    match dag.schedule {
        None => put(out, "null"),
        Some(Schedule::Preset(text)) => put_name(out, text),
        Some(Schedule::Seconds(seconds)) => put_number(out, seconds),
    }
    out.push(b'}');
}

pub fn put_task(out: &mut Vec<u8>, dag: &Dag, place: usize) {
    let task = &dag.tasks[place];
    put(out, "{\"downstream_task_ids\":[");
    for (at, &it) in dag.graph.downstream[place].iter().enumerate() {
        put(out, if at > 0 { ",\"" } else { "\"" });
        put(out, &dag.tasks[usize::from(it)].id);
        out.push(b'"');
    }
    put(out, "],\"pool\":");
    put_name(out, &task.pool);
    put(out, ",\"pool_slots\":");
    put_number(out, task.pool_slots.into());
    put(out, ",\"priority_weight\":");
    put_signed(out, task.priority_weight);
    put(out, ",\"retries\":");
    put_number(out, task.retries.into());
    put(out, ",\"task_id\":\"");
    put(out, &task.id);
    put(out, "\",\"trigger_rule\":\"");
    put(out, task.trigger_rule);
    put(out, "\"}");
}

pub fn put_run(out: &mut Vec<u8>, run: &Run, dag: &Dag) {
    put(out, "{\"dag_id\":\"");
    put(out, &dag.id);
    put(out, "\",\"dag_run_id\":\"");
    put(out, &run.id);
    put(out, "\",\"data_interval_end\":\"");
    instant::put(out, run.interval.1);
    put(out, "\",\"data_interval_start\":\"");
    instant::put(out, run.interval.0);
    put(out, "\",\"end_date\":");
    put_date(out, run.end);
    put(out, ",\"logical_date\":\"");
    instant::put(out, run.logical_date);
    put(out, "\",\"run_type\":\"");
    put(out, run.run_type);
    put(out, "\",\"start_date\":");
    put_date(out, run.start);
    put(out, ",\"state\":\"");
    put(out, run.state);
    put(out, "\"}");
}

pub fn put_instance(out: &mut Vec<u8>, instance: &Instance, task: &Task, run: &Run, dag: &Dag) {
    put(out, "{\"dag_id\":\"");
    put(out, &dag.id);
    put(out, "\",\"dag_run_id\":\"");
    put(out, &run.id);
    put(out, "\",\"end_date\":");
    put_date(out, instance.end);
    put(out, ",\"pool\":");
    put_name(out, &task.pool);
    put(out, ",\"pool_slots\":");
    put_number(out, task.pool_slots.into());
    put(out, ",\"priority_weight\":");
    put_signed(out, task.priority_weight);
    put(out, ",\"start_date\":");
    put_date(out, instance.start);
    put(out, ",\"state\":");
    match instance.state {
        Some(state) => put_name(out, state),
        None => put(out, "null"),
    }
    put(out, ",\"task_id\":\"");
    put(out, &task.id);
    put(out, "\",\"try_number\":");
    put_number(out, instance.try_number.into());
    out.push(b'}');
}

/// An instance that a clear has chosen.
pub fn put_chosen(out: &mut Vec<u8>, task: &Task, run: &Run, dag: &Dag) {
    put(out, "{\"dag_id\":\"");
    put(out, &dag.id);
    put(out, "\",\"dag_run_id\":\"");
    put(out, &run.id);
    put(out, "\",\"logical_date\":\"");
    instant::put(out, run.logical_date);
    put(out, "\",\"task_id\":\"");
    put(out, &task.id);
    put(out, "\"}");
}

pub fn put_pool(out: &mut Vec<u8>, name: &str, pool: &Pool) {
    let occupied = pool.queued + pool.running;
    put(out, "{\"name\":");
    put_name(out, name);
    put(out, ",\"occupied_slots\":");
    put_number(out, occupied);
    put(out, ",\"open_slots\":");
    put_number(out, u64::from(pool.slots).saturating_sub(occupied));
    put(out, ",\"queued_slots\":");
    put_number(out, pool.queued);
    put(out, ",\"running_slots\":");
    put_number(out, pool.running);
    put(out, ",\"slots\":");
    put_number(out, pool.slots.into());
    out.push(b'}');
}

pub fn put_variable(out: &mut Vec<u8>, key: &str, value: &str) {
    put(out, "{\"key\":");
    put_name(out, key);
    put(out, ",\"value\":");
    put_name(out, value);
    out.push(b'}');
}
