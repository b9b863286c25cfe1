//! Changes of the policy: what is read of a body before the lock, and the next version.
use std::collections::BTreeMap;
use std::sync::Arc;

use crate::answer::{fault, Fault};
use crate::dags::Dags;
use crate::json::Value;
use crate::names::is_account_name;
use crate::need::{action_of, ACTIONS, CREATE};
use crate::op::Op;
use crate::policy::{Policy, ADMIN};
use crate::role::Role;
use crate::rows::{put_role, put_user};
use crate::step::{bad_member, object};
use crate::text::{put, put_number};
use crate::users::User;

type Lists = Vec<(String, Vec<String>)>;

pub enum Change<'a> {
    User { name: &'a str, roles: Option<Vec<String>>, digest: Option<[u8; 32]> },
    Role { name: &'a str, pairs: Vec<(u8, String)> },
    /// For roles in order of their names, actions on a DAG; none leaves all as it is.
    Sync { dag: &'a str, lists: Option<Lists> },
}

pub fn digest_of(hex: &str) -> Option<[u8; 32]> {
    let digit = |it: u8| char::from(it).to_digit(16);
    let mut digest = [0; 32];
    if hex.len() != 64 {
        return None;
    }
    for (byte, pair) in digest.iter_mut().zip(hex.as_bytes().chunks_exact(2)) {
        *byte = (digit(pair[0])? * 16 + digit(pair[1])?) as u8;
    }
    Some(digest)
}

/// The texts of a list's members of one name.
fn names_in(list: &Value<'_>, member: &str) -> Option<Vec<String>> {
    list.list()?.iter().map(|it| it.get(member).and_then(Value::text).map(String::from)).collect()
}

pub fn read<'a>(op: &'a Op<'a>, body: &[u8]) -> Result<Change<'a>, Fault> {
    let body = object(body)?;
    match op {
        Op::SetUser(name) => {
            let named = |it: &Value<'_>| names_in(it, "name").filter(|of| of.iter().all(|it| is_account_name(it)));
            let roles = body.get("roles").map(|it| named(it).ok_or_else(|| bad_member("roles"))).transpose()?;
            let digest = body.get("token_sha256").map(|it| it.text().and_then(digest_of).ok_or_else(|| bad_member("token_sha256"))).transpose()?;
            Ok(Change::User { name, roles, digest })
        }
        Op::SetRole(name) => {
            let bad = || bad_member("actions");
            let part = |row: &Value<'_>, member: &str| Some(row.get(member)?.get("name")?.text()?.to_string());
            let mut rows = Vec::new();
            for it in body.get("actions").and_then(Value::list).ok_or_else(bad)? {
                rows.push((part(it, "action").ok_or_else(bad)?, part(it, "resource").ok_or_else(bad)?));
            }
            let known = |(action, resource): (String, String)| match action_of(&action) {
                Some(it) => Ok((it, resource)),
                None => Err(fault(400, format!("bad action: {action}"))),
            };
            Ok(Change::Role { name, pairs: rows.into_iter().map(known).collect::<Result<_, _>>()? })
        }
        Op::Sync(dag) => {
            let Some(control) = body.get("access_control") else { return Ok(Change::Sync { dag, lists: None }) };
            let Value::Object(of) = control else { return Err(bad_member("access_control")) };
            let texts = |it: &Value<'_>| it.list()?.iter().map(|it| it.text().map(String::from)).collect::<Option<Vec<_>>>();
            let mut lists = BTreeMap::new();
            for (name, list) in of {
                lists.insert(name.to_string(), texts(list).filter(|_| is_account_name(name)).ok_or_else(|| bad_member("access_control"))?);
            }
            Ok(Change::Sync { dag, lists: Some(lists.into_iter().collect()) })
        }
        _ => Err(fault(404, "no such path")),
    }
}

impl Change<'_> {
    /// Makes what stands into the next version, and writes the answer.
    pub fn make(&self, policy: &mut Policy, dags: &Dags, out: &mut Vec<u8>) -> Result<(), Fault> {
        policy.version += 1;
        match self {
            Change::User { name, roles, digest } => set_user(policy, name, roles.as_deref(), *digest, out),
            Change::Role { name, pairs } => set_role(policy, name, pairs, dags, out),
            Change::Sync { dag, lists } => {
                if let Some(lists) = lists {
                    sync(policy, dag, lists, dags)?;
                }
                put(out, "{\"dag_id\":\"");
                put(out, dag);
                put(out, "\",\"policy_version\":");
                put_number(out, policy.version.into());
                out.push(b'}');
                Ok(())
            }
        }
    }
}

/// Places of roles, in order of their names.
fn places_of(policy: &Policy, names: &[String]) -> Result<Vec<u32>, Fault> {
    let place = |it: &String| policy.place_of_role(it).ok_or_else(|| fault(400, format!("unknown role: {it}")));
    let mut places = names.iter().map(place).collect::<Result<Vec<_>, _>>()?;
    places.sort_by_key(|&it| &policy.role(it).name);
    Ok(places)
}

fn set_user(policy: &mut Policy, name: &str, roles: Option<&[String]>, digest: Option<[u8; 32]>, out: &mut Vec<u8>) -> Result<(), Fault> {
    let roles = roles.map(|it| places_of(policy, it)).transpose()?;
    let place = policy.users.place_of_name(name).ok_or_else(|| fault(404, format!("no such user: {name}")))?;
    if digest.and_then(|it| policy.users.place_of_digest(&it)).is_some_and(|it| it != place) {
        return Err(fault(409, format!("exists: {name}")));
    }
    let old = policy.users.at(place);
    let user = User { name: old.name.clone(), digest: digest.unwrap_or(old.digest), roles: roles.unwrap_or_else(|| old.roles.clone()) };
    let (was, is) = (old.roles.contains(&ADMIN), user.roles.contains(&ADMIN));
    policy.admins = policy.admins + usize::from(is) - usize::from(was);
    if policy.admins == 0 {
        return Err(fault(409, "last admin"));
    }
    put_user(out, &user, policy);
    policy.users.put(place, user);
    Ok(())
}

fn set_role(policy: &mut Policy, name: &str, pairs: &[(u8, String)], dags: &Dags, out: &mut Vec<u8>) -> Result<(), Fault> {
    let role = Role::of_pairs(name, pairs.iter().map(|it| (it.0, &*it.1)), dags).map_err(|(action, resource)| {
        let action = ACTIONS.iter().find(|it| it.0 == action).map_or("", |it| it.1);
        fault(400, format!("pair not allowed: {resource}.{action}"))
    })?;
    let place = policy.place_of_role(name).ok_or_else(|| fault(404, format!("no such role: {name}")))?;
    if place <= ADMIN {
        return Err(fault(409, format!("default role: {name}")));
    }
    put_role(out, &role);
    policy.roles[place as usize] = Arc::new(role);
    Ok(())
}

fn sync(policy: &mut Policy, dag: &str, lists: &[(String, Vec<String>)], dags: &Dags) -> Result<(), Fault> {
    let mut given = Vec::new();
    for (name, actions) in lists {
        let mut sum = 0;
        for it in actions {
            sum |= action_of(it).filter(|&it| it != CREATE).ok_or_else(|| fault(400, format!("bad action: {it}")))?;
        }
        given.push((policy.place_of_role(name).ok_or_else(|| fault(400, format!("unknown role: {name}")))?, sum));
    }
    for place in 0..policy.roles.len() {
        let role = &policy.roles[place];
        let was = role.dags.get(dag).copied().unwrap_or(0);
        let kept = if place == ADMIN as usize { was } else { 0 };
        let is = given.iter().find(|it| it.0 as usize == place).map_or(kept, |it| kept | it.1);
        if is != was {
            let mut on = role.dags.clone();
            if is == 0 { on.remove(dag) } else { on.insert(dag.into(), is) };
            policy.roles[place] = Arc::new(Role::of(&role.name, role.plain, on, dags));
        }
    }
    Ok(())
}
