//! What was changed: when, by whom, and under which version of the policy.
use std::rc::Rc;

use crate::answer::{fault, Fault};
use crate::instant;
use crate::plane::Dag;
use crate::text::{put, put_name, put_number};

/// Who does something, and when.
pub struct Author<'a> {
    pub name: &'a Rc<str>,
    pub version: u32,
    pub now: u64,
}

pub struct Entry {
    when: u64,
    owner: Rc<str>,
    version: u32,
    event: &'static str,
    /// The place of the DAG.
    pub dag: Option<usize>,
    run: Option<Rc<str>>,
}

pub struct Audit {
    pub entries: Vec<Entry>,
    /// How many there may be.
    pub most: usize,
}

impl Audit {
    pub fn has_room(&self) -> Result<(), Fault> {
        if self.entries.len() < self.most { Ok(()) } else { Err(fault(507, "history full")) }
    }

    pub fn add(&mut self, author: &Author<'_>, event: &'static str, dag: Option<usize>, run: Option<Rc<str>>) {
        let owner = author.name.clone();
        self.entries.push(Entry { when: author.now, owner, version: author.version, event, dag, run });
    }
}

/// An id, which needs no escapes, or null.
fn put_id(out: &mut Vec<u8>, id: Option<&str>) {
    let Some(id) = id else { return put(out, "null") };
    out.push(b'"');
    put(out, id);
    out.push(b'"');
}

/// The entry of that number.
pub fn put_entry(out: &mut Vec<u8>, number: usize, entry: &Entry, dags: &[Dag]) {
    put(out, "{\"dag_id\":");
    put_id(out, entry.dag.map(|it| &*dags[it].id));
    put(out, ",\"event\":\"");
    put(out, entry.event);
    put(out, "\",\"event_log_id\":");
    put_number(out, number as u64);
    put(out, ",\"owner\":");
    put_name(out, &entry.owner);
    put(out, ",\"policy_version\":");
    put_number(out, entry.version.into());
    put(out, ",\"run_id\":");
    put_id(out, entry.run.as_deref());
    put(out, ",\"task_id\":null,\"when\":\"");
    instant::put(out, entry.when);
    put(out, "\"}");
}
