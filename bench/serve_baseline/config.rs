//! The configuration, which is taken for right: what is wrong in it gives none. Schedules are not read.
use std::collections::HashMap;
use std::sync::{Arc, Mutex};

use crate::change::digest_of;
use crate::dags::{Dag, Dags, Task};
use crate::json::{self, Value};
use crate::need::action_of;
use crate::plane::{DagRow, Plane};
use crate::policy::{Policy, ADMIN};
use crate::role::{default_roles, Role};
use crate::server::Server;
use crate::site::Site;
use crate::users::{User, Users};

fn rows<'v, 'a>(value: &'v Value<'a>, member: &str) -> &'v [Value<'a>] {
    value.get(member).and_then(Value::list).unwrap_or_default()
}

fn text<'v>(value: &'v Value<'_>, member: &str) -> Option<&'v str> {
    value.get(member).and_then(Value::text)
}

fn number(value: &Value<'_>, member: &str, default: i128) -> i128 {
    if let Some(&Value::Integer(it)) = value.get(member) { it } else { default }
}

fn task_of(row: &Value<'_>, at: usize, all: &[Value<'_>]) -> Option<Task> {
    let id = text(row, "task_id")?;
    let names = |it: &Value<'_>| rows(it, "upstream").iter().any(|it| it.text() == Some(id));
    Some(Task {
        id: id.into(),
        pool: text(row, "pool").unwrap_or("default_pool").into(),
        pool_slots: number(row, "pool_slots", 1) as u32,
        priority_weight: number(row, "priority_weight", 1) as i32,
        retries: number(row, "retries", 0) as u32,
        trigger_rule: text(row, "trigger_rule").unwrap_or("all_success").into(),
        downstream: (0..all.len()).filter(|&it| it != at && names(&all[it])).map(|it| it as u16).collect(),
    })
}

fn dags_of(config: &Value<'_>) -> Option<(Dags, Vec<DagRow>)> {
    let (mut dags, mut paused) = (Vec::new(), HashMap::new());
    for row in rows(config, "dags") {
        let (id, tasks) = (text(row, "dag_id")?, rows(row, "tasks"));
        paused.insert(id, matches!(row.get("is_paused"), Some(Value::Bool(true))));
        let tasks = tasks.iter().enumerate().map(|(at, it)| task_of(it, at, tasks)).collect::<Option<_>>()?;
        dags.push(Dag { id: id.into(), max_active_runs: number(row, "max_active_runs", 16) as u32, tasks });
    }
    let dags = Dags::of(dags);
    let states = dags.rows.iter().map(|it| DagRow { is_paused: paused[&*it.id], ..DagRow::default() }).collect();
    Some((dags, states))
}

fn policy_of(config: &Value<'_>, dags: &Dags) -> Option<Policy> {
    let mut roles = default_roles();
    for row in rows(config, "roles") {
        let part = |pair: &Value<'_>, member| pair.get(member).and_then(|it| it.get("name")).and_then(Value::text).map(String::from);
        let pairs = rows(row, "actions").iter().map(|it| Some((action_of(&part(it, "action")?)?, part(it, "resource")?)));
        let pairs = pairs.collect::<Option<Vec<_>>>()?;
        roles.push(Role::of_pairs(text(row, "name")?, pairs.iter().map(|it| (it.0, &*it.1)), dags).ok()?);
    }
    let places: HashMap<Box<str>, u32> = roles.iter().enumerate().map(|(place, it)| (it.name.clone(), place as u32)).collect();
    let mut users = Vec::new();
    for row in rows(config, "users") {
        let mut held = rows(row, "roles").iter().map(|it| places.get(text(it, "name")?).copied()).collect::<Option<Vec<u32>>>()?;
        held.sort_by_key(|&it| &roles[it as usize].name);
        users.push(User { name: text(row, "username")?.into(), digest: digest_of(text(row, "token_sha256")?)?, roles: held });
    }
    let admins = users.iter().filter(|it| it.roles.contains(&ADMIN)).count();
    Some(Policy { version: 0, roles: roles.into_iter().map(Arc::new).collect(), places: Arc::new(places), users: Users::of(users), admins })
}

pub fn read(bytes: &[u8]) -> Option<Server> {
    let config = json::parse(bytes)?;
    let (dags, states) = dags_of(&config)?;
    let site = Site::of(policy_of(&config, &dags)?, number(&config, "version_limit", u32::MAX.into()) as u32);
    let most = number(&config, "history_limit", 1_000_000) as usize;
    Some(Server { dags, site, plane: Mutex::new(Plane { dags: states, runs: Vec::new(), entries: Vec::new(), most }) })
}
