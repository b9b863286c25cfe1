//! A role: what it may do on resources and on single DAGs.
use std::collections::BTreeMap;

use crate::dags::Dags;
use crate::names::is_id;
use crate::need::{Resource, Resource::*, ALL, CREATE, DELETE, EDIT, READ, RESOURCES};

#[derive(Clone)]
pub struct Role {
    pub name: Box<str>,
    /// Actions on each resource.
    pub plain: [u8; 8],
    /// Actions on single DAGs, also on those that do not exist.
    pub dags: BTreeMap<Box<str>, u8>,
    /// The same by the place of the DAG, where it exists; nothing where the role has no single DAG.
    at: Box<[u8]>,
}

impl Role {
    pub fn of(name: &str, plain: [u8; 8], dags: BTreeMap<Box<str>, u8>, all: &Dags) -> Role {
        let at = match dags.is_empty() {
            true => Box::default(),
            false => all.rows.iter().map(|it| dags.get(&it.id).copied().unwrap_or(0)).collect(),
        };
        Role { name: name.into(), plain, dags, at }
    }

    /// A role of these permissions, an action and a resource each. None if a resource does not take the action.
    pub fn of_pairs<'p>(name: &str, pairs: impl Iterator<Item = (u8, &'p str)>, all: &Dags) -> Result<Role, (u8, &'p str)> {
        let (mut plain, mut dags) = ([0; 8], BTreeMap::new());
        for (action, resource) in pairs {
            match resource.strip_prefix("DAG:") {
                Some(dag) if action != CREATE && is_id(dag) => *dags.entry(dag.into()).or_insert(0) |= action,
                None if RESOURCES.contains(&resource) => plain[RESOURCES.iter().position(|&it| it == resource).unwrap_or(0)] |= action,
                _ => return Err((action, resource)),
            }
        }
        Ok(Role::of(name, plain, dags, all))
    }

    pub fn has(&self, action: u8, resource: Resource) -> bool {
        self.plain[resource as usize] & action != 0
    }

    /// Whether it has the action on a DAG, of which the place is known where it exists.
    pub fn has_at(&self, action: u8, dag: &str, place: Option<usize>) -> bool {
        let alone = match place {
            Some(place) => self.at.get(place).copied().unwrap_or(0),
            None => self.dags.get(dag).copied().unwrap_or(0),
        };
        (self.plain[Dags as usize] | alone) & action != 0
    }

    /// Whether it has the action on some DAG that exists.
    pub fn has_some(&self, action: u8) -> bool {
        self.at.iter().any(|it| it & action != 0)
    }
}

/// Public, Viewer, User, Op and Admin, in which each has what the one before has.
pub fn default_roles() -> Vec<Role> {
    let more: [(&str, &[(Resource, u8)]); 5] = [
        ("Public", &[]),
        ("Viewer", &[(Dags, READ), (DagRuns, READ), (TaskInstances, READ)]),
        ("User", &[(Dags, EDIT | DELETE), (DagRuns, ALL), (TaskInstances, ALL)]),
        ("Op", &[(Pools, ALL), (Variables, ALL), (AuditLogs, READ)]),
        ("Admin", &[(Roles, ALL), (Users, ALL)]),
    ];
    let mut plain = [0; 8];
    let add = |(name, rows): (&str, &[(Resource, u8)])| {
        rows.iter().for_each(|&(resource, actions)| plain[resource as usize] |= actions);
        Role { name: name.into(), plain, dags: BTreeMap::new(), at: Box::default() }
    };
    more.into_iter().map(add).collect()
}
