//! Roles as sets of permissions, users behind their tokens, and what an operation requires.
use std::collections::{BTreeMap, HashMap};
use std::rc::Rc;

pub const CREATE: u8 = 1;
pub const READ: u8 = 2;
pub const EDIT: u8 = 4;
pub const DELETE: u8 = 8;
const ALL: u8 = CREATE | READ | EDIT | DELETE;

#[derive(Clone, Copy)]
pub enum Resource {
    Dags,
    DagRuns,
    TaskInstances,
    Pools,
    Variables,
    AuditLogs,
    Roles,
    Users,
}

const RESOURCES: [&str; 8] = ["DAGs", "DAG Runs", "Task Instances", "Pools", "Variables", "Audit Logs", "Roles", "Users"];

pub fn action_of(text: &str) -> Option<u8> {
    match text {
        "can_create" => Some(CREATE),
        "can_read" => Some(READ),
        "can_edit" => Some(EDIT),
        "can_delete" => Some(DELETE),
        _ => None,
    }
}

fn action_text(action: u8) -> &'static str {
    match action {
        CREATE => "can_create",
        READ => "can_read",
        EDIT => "can_edit",
        _ => "can_delete",
    }
}

/// Sets of actions, by resource, and by DAG.
#[derive(Clone, Default)]
pub struct Role {
    plain: [u8; 8],
    dags: BTreeMap<String, u8>,
}

impl Role {
    /// Adds a permission; none where the resource does not carry the action.
    pub fn add(&mut self, action: u8, resource: &str) -> Option<()> {
        match resource.strip_prefix("DAG:") {
            Some(dag) if action == CREATE || !crate::names::is_id(dag) => return None,
            Some(dag) => *self.dags.entry(dag.to_string()).or_default() |= action,
            None => self.plain[RESOURCES.iter().position(|&it| it == resource)?] |= action,
        }
        Some(())
    }

    fn has(&self, action: u8, resource: Resource) -> bool {
        self.plain[resource as usize] & action != 0
    }

    fn has_at(&self, action: u8, dag: &str) -> bool {
        self.has(action, Resource::Dags) || self.dags.get(dag).is_some_and(|it| it & action != 0)
    }
}

/// Public, Viewer, User, Op and Admin, in which each has what the one before has.
pub fn default_roles() -> Vec<(&'static str, Role)> {
    use Resource::*;
    let more: [(&str, &[(Resource, u8)]); 5] = [
        ("Public", &[]),
        ("Viewer", &[(Dags, READ), (DagRuns, READ), (TaskInstances, READ)]),
        ("User", &[(Dags, EDIT | DELETE), (DagRuns, ALL), (TaskInstances, ALL)]),
        ("Op", &[(Pools, ALL), (Variables, ALL), (AuditLogs, READ)]),
        ("Admin", &[(Roles, ALL), (Users, ALL)]),
    ];
    let mut role = Role::default();
    let mut add = |rows: &[(Resource, u8)]| {
        rows.iter().for_each(|&(resource, actions)| role.plain[resource as usize] |= actions);
        role.clone()
    };
    more.into_iter().map(|(name, rows)| (name, add(rows))).collect()
}

/// What an operation requires: an action at the DAG that it names, at one DAG that is there, or on a resource.
#[derive(Clone, Copy)]
pub enum Need {
    At(u8),
    Some(u8),
    On(Resource, u8),
}

impl Need {
    pub fn text(self, dag: &str) -> String {
        match self {
            Need::At(action) => format!("DAG:{dag}.{}", action_text(action)),
            Need::Some(action) => format!("DAGs.{}", action_text(action)),
            Need::On(resource, action) => format!("{}.{}", RESOURCES[resource as usize], action_text(action)),
        }
    }
}

pub struct User {
    pub name: Rc<str>,
    pub roles: Vec<usize>,
}

/// The roles, and the users by the digests of their tokens.
pub struct Policy {
    pub version: u32,
    pub roles: Vec<Role>,
    pub users: HashMap<[u8; 32], User>,
}

impl Policy {
    pub fn bearer(&self, token: &[u8]) -> Option<Bearer<'_>> {
        let user = self.users.get(&crate::sha256::digest(token))?;
        Some(Bearer { policy: self, user })
    }
}

/// A user, as who the policy grants what.
pub struct Bearer<'a> {
    policy: &'a Policy,
    user: &'a User,
}

impl<'a> Bearer<'a> {
    pub fn name(&self) -> &'a Rc<str> {
        &self.user.name
    }

    fn any(&self, has: impl Fn(&Role) -> bool) -> bool {
        self.user.roles.iter().any(|&it| has(&self.policy.roles[it]))
    }

    pub fn reads_all(&self) -> bool {
        self.any(|it| it.has(READ, Resource::Dags))
    }

    pub fn reads(&self, dag: &str) -> bool {
        self.any(|it| it.has_at(READ, dag))
    }

    /// The first requirement that is not met, where `stands` says which DAGs there are.
    pub fn missing(&self, needs: &[Need], dag: &str, stands: impl Fn(&str) -> bool) -> Option<Need> {
        needs.iter().copied().find(|need| !match *need {
            Need::At(action) => self.any(|it| it.has_at(action, dag)),
            Need::On(resource, action) => self.any(|it| it.has(action, resource)),
            Need::Some(action) => {
                self.any(|it| it.has(action, Resource::Dags))
                    || self.any(|it| it.dags.iter().any(|(dag, actions)| actions & action != 0 && stands(dag)))
            }
        })
    }
}
