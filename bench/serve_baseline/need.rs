//! What an operation requires: an action on the DAG that it names, on some DAG that there is, or on a resource.
pub const CREATE: u8 = 1;
pub const READ: u8 = 2;
pub const EDIT: u8 = 4;
pub const DELETE: u8 = 8;
pub const ALL: u8 = CREATE | READ | EDIT | DELETE;

#[derive(Clone, Copy)]
pub enum Resource {
    Dags,
    DagRuns,
    TaskInstances,
    Pools,
    Variables,
    AuditLogs,
    Roles,
    Users,
}

pub const RESOURCES: [&str; 8] = ["DAGs", "DAG Runs", "Task Instances", "Pools", "Variables", "Audit Logs", "Roles", "Users"];
/// Bits of actions and their texts, in order.
pub const ACTIONS: [(u8, &str); 4] = [(CREATE, "can_create"), (READ, "can_read"), (EDIT, "can_edit"), (DELETE, "can_delete")];

pub fn action_of(text: &str) -> Option<u8> {
    ACTIONS.iter().find(|it| it.1 == text).map(|it| it.0)
}

fn action_text(action: u8) -> &'static str {
    ACTIONS.iter().find(|it| it.0 == action).map_or("", |it| it.1)
}

#[derive(Clone, Copy)]
pub enum Need {
    At(u8),
    Some(u8),
    On(Resource, u8),
}

impl Need {
    pub fn text(self, dag: &str) -> String {
        match self {
            Need::At(action) => format!("DAG:{dag}.{}", action_text(action)),
            Need::Some(action) => format!("DAGs.{}", action_text(action)),
            Need::On(resource, action) => format!("{}.{}", RESOURCES[resource as usize], action_text(action)),
        }
    }
}
