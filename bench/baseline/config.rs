//! The configuration, judged as afplane judges it: the first fault decides the reason.
use std::collections::{BTreeMap, HashMap, HashSet};
use std::rc::Rc;

use crate::audit::Audit;
use crate::graph::graph;
use crate::json::{self, Value};
use crate::names::{is_account_name, is_id, is_pool_name, is_variable_key};
use crate::plane::{Dag, Plane, Pool, Schedule, Task, MOST_POOLS, MOST_SLOTS, MOST_VARIABLES};
use crate::policy::{action_of, default_roles, Policy, Role, User};
use crate::instant;

pub const MOST_BYTES: usize = 16 << 20;
const MOST_ROLES: usize = 4_096;
const MOST_USERS: usize = 65_536;
const MOST_DAGS: usize = 1_024;
const MOST_TASKS: usize = 512;
const YEAR: i128 = 31_536_000;

const RULES: [&str; 11] = [
    "all_success", "all_failed", "all_done", "one_success", "one_failed", "one_done", "none_failed",
    "none_failed_min_one_success", "none_skipped", "all_skipped", "always",
];
const OUTCOMES: [&str; 3] = ["success", "failed", "skipped"];

type Judged<T> = Result<T, &'static str>;

fn rows<'v, 'a>(value: &'v Value<'a>, member: &str) -> Judged<&'v [Value<'a>]> {
    value.get(member).map_or(Ok(&[]), |it| it.list().ok_or("shape"))
}

fn text<'v>(value: &'v Value<'_>, member: &str) -> Judged<&'v str> {
    value.get(member).and_then(Value::text).ok_or("shape")
}

fn name<'v>(value: &'v Value<'_>, member: &str, is_name: impl Fn(&str) -> bool) -> Judged<&'v str> {
    text(value, member).and_then(|it| if is_name(it) { Ok(it) } else { Err("name") })
}

fn truth(value: &Value<'_>, member: &str, default: bool) -> Judged<bool> {
    match value.get(member) {
        None => Ok(default),
        Some(Value::Bool(it)) => Ok(*it),
        Some(_) => Err("shape"),
    }
}

fn within(value: &Value<'_>, least: i128, most: i128) -> Judged<i128> {
    match value {
        Value::Integer(it) if (least..=most).contains(it) => Ok(*it),
        Value::Integer(_) => Err("limit"),
        _ => Err("shape"),
    }
}

fn number(value: &Value<'_>, member: &str, least: i128, most: i128, default: i128) -> Judged<i128> {
    value.get(member).map_or(Ok(default), |it| within(it, least, most))
}

fn word(value: &Value<'_>, words: &[&'static str]) -> Judged<&'static str> {
    let text = value.text().ok_or("shape")?;
    words.iter().copied().find(|&it| it == text).ok_or("shape")
}

fn digest(hex: &str) -> Judged<[u8; 32]> {
    let digit = |it: u8| char::from(it).to_digit(16).ok_or("shape");
    let mut digest = [0u8; 32];
    if hex.len() != 64 {
        return Err("shape");
    }
    for (byte, pair) in digest.iter_mut().zip(hex.as_bytes().chunks_exact(2)) {
        *byte = (digit(pair[0])? * 16 + digit(pair[1])?) as u8;
    }
    Ok(digest)
}

fn role_of(row: &Value<'_>) -> Judged<Role> {
    let mut pairs = Vec::new();
    for pair in row.get("actions").and_then(Value::list).ok_or("shape")? {
        let part = |member| match pair.get(member) {
            Some(it @ Value::Object(_)) => text(it, "name"),
            _ => Err("shape"),
        };
        pairs.push((part("action")?, part("resource")?));
    }
    let actions = pairs.iter().map(|it| action_of(it.0).ok_or("action")).collect::<Judged<Vec<u8>>>()?;
    let mut role = Role::default();
    for (action, (_, resource)) in actions.into_iter().zip(pairs) {
        role.add(action, resource).ok_or("pair")?;
    }
    Ok(role)
}

fn policy_of(config: &Value<'_>) -> Judged<Policy> {
    let (mut places, mut roles) = (HashMap::new(), Vec::new());
    for (name, role) in default_roles() {
        places.insert(name, roles.len());
        roles.push(role);
    }
    let admin = places["Admin"];
    for row in rows(config, "roles")? {
        let name = name(row, "name", is_account_name)?;
        let role = role_of(row)?;
        if places.insert(name, roles.len()).is_some() {
            return Err("duplicate");
        }
        if roles.len() >= MOST_ROLES {
            return Err("limit");
        }
        roles.push(role);
    }
    let all = rows(config, "users")?;
    let (mut users, mut names) = (HashMap::with_capacity(all.len()), HashSet::with_capacity(all.len()));
    let mut has_admin = false;
    for row in all {
        let user = name(row, "username", is_account_name)?;
        let asked = row.get("roles").and_then(Value::list).ok_or("shape")?;
        for it in asked {
            text(it, "name")?;
        }
        for it in asked {
            name(it, "name", is_account_name)?;
        }
        let digest = digest(text(row, "token_sha256")?)?;
        let mut held = Vec::with_capacity(asked.len());
        for it in asked {
            held.push(*places.get(text(it, "name")?).ok_or("role")?);
        }
        has_admin |= held.contains(&admin);
        let user_row = User { name: user.into(), roles: held };
        if !names.insert(user) || users.insert(digest, user_row).is_some() {
            return Err("duplicate");
        }
        if users.len() > MOST_USERS {
            return Err("limit");
        }
    }
    if has_admin { Ok(Policy { version: 0, roles, users }) } else { Err("admin") }
}

fn pools_of(config: &Value<'_>) -> Judged<BTreeMap<Rc<str>, Pool>> {
    let mut pools = BTreeMap::from([(Rc::from("default_pool"), Pool::of(128))]);
    let mut has_default = false;
    for row in rows(config, "pools")? {
        let name = name(row, "name", is_pool_name)?;
        let slots = within(row.get("slots").ok_or("shape")?, 0, MOST_SLOTS)? as u32;
        let is_default = name == "default_pool" && !std::mem::replace(&mut has_default, true);
        if pools.insert(Rc::from(name), Pool::of(slots)).is_some() && !is_default {
            return Err("duplicate");
        }
        if pools.len() > MOST_POOLS {
            return Err("limit");
        }
    }
    Ok(pools)
}

fn variables_of(config: &Value<'_>) -> Judged<BTreeMap<Box<str>, Box<str>>> {
    let mut variables = BTreeMap::new();
    for row in rows(config, "variables")? {
        let key = name(row, "key", is_variable_key)?;
        let value = text(row, "value")?;
        if variables.insert(key.into(), value.into()).is_some() {
            return Err("duplicate");
        }
        if variables.len() > MOST_VARIABLES {
            return Err("limit");
        }
    }
    Ok(variables)
}

fn schedule_of(row: &Value<'_>) -> Judged<Option<(Schedule, u64)>> {
    let schedule = match row.get("schedule") {
        None => return Ok(None),
        Some(Value::Text(it)) => Schedule::preset(it).ok_or("schedule")?,
        Some(it) => Schedule::Seconds(within(it, 1, YEAR)? as u64),
    };
    let start = text(row, "start_date").ok().and_then(instant::read).ok_or("schedule")?;
    Ok(Some((schedule, start)))
}

/// A task and the ids of those upstream. Slots are judged with the graph.
fn task_of<'v>(row: &'v Value<'_>, pools: &BTreeMap<Rc<str>, Pool>) -> Judged<(Task, Vec<&'v str>, i128)> {
    let id = name(row, "task_id", is_id)?;
    let upstream = rows(row, "upstream")?.iter().map(|it| it.text().ok_or("shape")).collect::<Judged<Vec<&str>>>()?;
    if !upstream.iter().all(|it| is_id(it)) {
        return Err("name");
    }
    let pool = if row.get("pool").is_some() { name(row, "pool", is_pool_name)? } else { "default_pool" };
    let pool = pools.get_key_value(pool).ok_or("pool")?.0.clone();
    let slots = number(row, "pool_slots", i128::MIN, i128::MAX, 1)?;
    let priority_weight = number(row, "priority_weight", i32::MIN.into(), i32::MAX.into(), 1)? as i32;
    let retries = number(row, "retries", 0, 1_000, 0)? as u32;
    let retry_delay = number(row, "retry_delay", 0, YEAR, 300)? as u32;
    let trigger_rule = row.get("trigger_rule").map_or(Ok("all_success"), |it| word(it, &RULES))?;
    let script = match row.get("script") {
        None => None,
        Some(it) => Some(it.list().ok_or("shape")?.iter().map(|it| word(it, &OUTCOMES)).collect::<Judged<Vec<_>>>()?),
    };
    let task = Task { id: id.into(), pool, pool_slots: slots as u32, priority_weight, retries, retry_delay, trigger_rule, script };
    Ok((task, upstream, slots))
}

fn dag_of(row: &Value<'_>, pools: &BTreeMap<Rc<str>, Pool>) -> Judged<Dag> {
    let id = name(row, "dag_id", is_id)?;
    let schedule = schedule_of(row)?;
    let catchup = truth(row, "catchup", true)?;
    let max_active_runs = number(row, "max_active_runs", 1, 1_000, 16)? as u32;
    let is_paused = truth(row, "is_paused", false)?;
    let all = rows(row, "tasks")?;
    let (mut tasks, mut before) = (Vec::with_capacity(all.len()), Vec::with_capacity(all.len()));
    let mut fits = (1..=MOST_TASKS).contains(&all.len());
    for it in all {
        let (task, upstream, slots) = task_of(it, pools)?;
        fits &= (1..=1_000_000).contains(&slots);
        tasks.push(task);
        before.push(upstream);
    }
    let ids: Vec<&str> = tasks.iter().map(|it| &*it.id).collect();
    let graph = if fits { graph(&ids, &before) } else { None }.ok_or("graph")?;
    Ok(Dag {
        id: id.into(),
        is_paused,
        max_active_runs,
        schedule: schedule.map(|it| it.0),
        catchup,
        cursor: schedule.and_then(|(schedule, start)| schedule.first(start)),
        tasks,
        graph,
        runs: Vec::new(),
        by_id: HashMap::new(),
        by_date: HashMap::new(),
    })
}

/// Reads a configuration, or tells the reason why it is refused.
pub fn read(bytes: &[u8]) -> Judged<(Policy, Plane)> {
    let config = json::parse(bytes).ok_or("syntax")?;
    let Value::Object(_) = config else { return Err("shape") };
    let policy = policy_of(&config)?;
    let mut pools = pools_of(&config)?;
    let variables = variables_of(&config)?;
    let all = rows(&config, "dags")?;
    let (mut dags, mut ids) = (Vec::with_capacity(all.len()), HashSet::with_capacity(all.len()));
    for row in all {
        let dag = dag_of(row, &pools)?;
        if !ids.insert(dag.id.clone()) {
            return Err("duplicate");
        }
        if dags.len() >= MOST_DAGS {
            return Err("limit");
        }
        for it in &dag.tasks {
            pools.get_mut(&it.pool).ok_or("pool")?.tasks += 1;
        }
        dags.push(dag);
    }
    let most = number(&config, "history_limit", 1, 4_294_967_294, 1_000_000)? as usize;
    // Judged, and not obeyed, since no policy changes.
    number(&config, "version_limit", 1, 4_294_967_295, 4_294_967_295)?;
    dags.sort_unstable_by(|a, b| a.id.cmp(&b.id));
    let places = dags.iter().enumerate().map(|(place, it)| (it.id.clone(), place)).collect();
    Ok((policy, Plane { dags, places, runs: Vec::new(), count: 0, pools, variables, audit: Audit { entries: Vec::new(), most } }))
}
