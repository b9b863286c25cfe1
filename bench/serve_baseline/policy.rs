//! One version of the policy.
use std::collections::HashMap;
use std::sync::Arc;

use crate::dags::Dags;
use crate::need::{Need, Resource, READ};
use crate::role::Role;
use crate::users::{User, Users};

#[derive(Clone)]
pub struct Policy {
    pub version: u32,
    pub roles: Vec<Arc<Role>>,
    pub places: Arc<HashMap<Box<str>, u32>>,
    pub users: Users,
    /// How many users have the role Admin.
    pub admins: usize,
}

/// The place of Admin among the roles.
pub const ADMIN: u32 = 4;

impl Policy {
    pub fn bearer(&self, digest: Option<&[u8; 32]>) -> Option<Bearer<'_>> {
        let user = self.users.of_digest(digest?)?;
        Some(Bearer { policy: self, user })
    }

    pub fn role(&self, place: u32) -> &Role {
        &self.roles[place as usize]
    }

    pub fn place_of_role(&self, name: &str) -> Option<u32> {
        self.places.get(name).copied()
    }
}

/// A user, as who the policy grants what.
pub struct Bearer<'a> {
    pub policy: &'a Policy,
    pub user: &'a User,
}

impl Bearer<'_> {
    fn any(&self, has: impl Fn(&Role) -> bool) -> bool {
        self.user.roles.iter().any(|&it| has(self.policy.role(it)))
    }

    pub fn reads_all(&self) -> bool {
        self.any(|it| it.has(READ, Resource::Dags))
    }

    pub fn reads(&self, place: usize) -> bool {
        self.any(|it| it.has_at(READ, "", Some(place)))
    }

    /// The first requirement that is not met; of the DAG in the path the place is known, where it exists.
    pub fn missing(&self, needs: &[Need], dag: &str, place: Option<usize>) -> Option<Need> {
        needs.iter().copied().find(|need| !match *need {
            Need::At(action) => self.any(|it| it.has_at(action, dag, place)),
            Need::On(resource, action) => self.any(|it| it.has(action, resource)),
            Need::Some(action) => self.any(|it| it.has(action, Resource::Dags) || it.has_some(action)),
        })
    }

    /// All that the user's roles may do: on resources, and on single DAGs in order of their ids.
    pub fn may(&self, dags: &Dags) -> Role {
        let roles = || self.user.roles.iter().map(|&it| self.policy.role(it));
        let mut all = Role::of("", [0; 8], Default::default(), dags);
        for role in roles() {
            all.plain.iter_mut().zip(role.plain).for_each(|(to, it)| *to |= it);
            role.dags.iter().for_each(|(dag, it)| *all.dags.entry(dag.clone()).or_default() |= it);
        }
        all
    }
}
