//! Which operation a method and a path name, and what it requires.
use std::borrow::Cow;

use crate::names::{is_account_name, is_id, is_run_id};
use crate::need::{Need, Resource::*, CREATE, EDIT, READ};
use crate::query;

type Text<'a> = Cow<'a, str>;

pub enum Op<'a> {
    Version,
    Dags,
    Dag(Text<'a>),
    Pause(Text<'a>),
    Tasks(Text<'a>),
    AllRuns,
    Runs(Text<'a>),
    Trigger(Text<'a>),
    Run(Text<'a>, Text<'a>),
    Instances(Text<'a>, Text<'a>),
    Me,
    Users,
    User(Text<'a>),
    SetUser(Text<'a>),
    Roles,
    Role(Text<'a>),
    SetRole(Text<'a>),
    Sync(Text<'a>),
}

pub enum Unrouted {
    NoPath,
    /// The methods that the path has.
    BadMethod(&'static str),
}

use Unrouted::{BadMethod, NoPath};

impl Op<'_> {
    pub fn needs(&self) -> &'static [Need] {
        match self {
            Op::Version | Op::Me => &[],
            Op::Dags => &[Need::Some(READ)],
            Op::Dag(_) => &[Need::At(READ)],
            Op::Pause(_) => &[Need::At(EDIT)],
            Op::Tasks(_) => &[Need::At(READ), Need::On(TaskInstances, READ)],
            Op::AllRuns => &[Need::Some(READ), Need::On(DagRuns, READ)],
            Op::Runs(_) | Op::Run(..) => &[Need::At(READ), Need::On(DagRuns, READ)],
            Op::Trigger(_) => &[Need::At(EDIT), Need::On(DagRuns, CREATE)],
            Op::Instances(..) => &[Need::At(READ), Need::On(DagRuns, READ), Need::On(TaskInstances, READ)],
            Op::Users | Op::User(_) => &[Need::On(Users, READ)],
            Op::SetUser(_) => &[Need::On(Users, EDIT)],
            Op::Roles | Op::Role(_) => &[Need::On(Roles, READ)],
            Op::SetRole(_) | Op::Sync(_) => &[Need::On(Roles, EDIT)],
        }
    }

    /// The DAG that the path names; an empty text where it names none.
    pub fn dag(&self) -> &str {
        match self {
            Op::Dag(dag) | Op::Pause(dag) | Op::Tasks(dag) | Op::Runs(dag) | Op::Trigger(dag) => dag,
            Op::Run(dag, _) | Op::Instances(dag, _) => dag,
            _ => "",
        }
    }
}

/// The name that a segment spells.
fn named(bytes: &[u8], is_name: impl Fn(&str) -> bool) -> Result<Text<'_>, Unrouted> {
    let text = match query::decoded(bytes, false) {
        Cow::Borrowed(it) => std::str::from_utf8(it).map(Cow::Borrowed).map_err(|_| NoPath),
        Cow::Owned(it) => String::from_utf8(it).map(Cow::Owned).map_err(|_| NoPath),
    }?;
    if is_name(&text) { Ok(text) } else { Err(NoPath) }
}

pub fn route<'a>(method: &[u8], path: &'a [u8]) -> Result<Op<'a>, Unrouted> {
    const MOST: usize = 7;
    let is_get = method == b"GET";
    let get = |op| if is_get { Ok(op) } else { Err(BadMethod("GET")) };
    let (mut segments, mut count) = ([&b""[..]; MOST], 0);
    for it in path.strip_prefix(b"/").ok_or(NoPath)?.split(|&it| it == b'/') {
        *segments.get_mut(count).ok_or(NoPath)? = it;
        count += 1;
    }
    match &segments[..count] {
        [b"own", b"me"] => get(Op::Me),
        [b"own", b"dags", dag, b"sync"] => {
            let dag = named(dag, is_id)?;
            if method == b"POST" { Ok(Op::Sync(dag)) } else { Err(BadMethod("POST")) }
        }
        [b"api", b"v1", b"version"] => get(Op::Version),
        [b"api", b"v1", b"dags"] => get(Op::Dags),
        [b"api", b"v1", b"dags", dag, rest @ ..] => route_dag(method, dag, rest),
        [b"api", b"v1", b"users"] => if is_get { Ok(Op::Users) } else { Err(BadMethod("GET, POST")) },
        [b"api", b"v1", b"roles"] => if is_get { Ok(Op::Roles) } else { Err(BadMethod("GET, POST")) },
        [b"api", b"v1", what @ (b"users" | b"roles"), name] => {
            let name = named(name, is_account_name)?;
            match (method, *what == b"users") {
                (b"GET", true) => Ok(Op::User(name)),
                (b"GET", false) => Ok(Op::Role(name)),
                (b"PATCH", true) => Ok(Op::SetUser(name)),
                (b"PATCH", false) => Ok(Op::SetRole(name)),
                _ => Err(BadMethod("GET, PATCH, DELETE")),
            }
        }
        _ => Err(NoPath),
    }
}

/// What stands behind `/dags/{dag_id}`.
fn route_dag<'a>(method: &[u8], dag: &'a [u8], rest: &[&'a [u8]]) -> Result<Op<'a>, Unrouted> {
    let get = |op| if method == b"GET" { Ok(op) } else { Err(BadMethod("GET")) };
    match rest {
        [] => {
            let dag = named(dag, is_id)?;
            match method {
                b"GET" => Ok(Op::Dag(dag)),
                b"PATCH" => Ok(Op::Pause(dag)),
                _ => Err(BadMethod("GET, PATCH")),
            }
        }
        [b"tasks"] => get(Op::Tasks(named(dag, is_id)?)),
        [b"dagRuns"] => {
            let dag = named(dag, |it| is_id(it) || it == "~" && method == b"GET")?;
            match method {
                b"GET" if dag == "~" => Ok(Op::AllRuns),
                b"GET" => Ok(Op::Runs(dag)),
                b"POST" => Ok(Op::Trigger(dag)),
                _ => Err(BadMethod("GET, POST")),
            }
        }
        [b"dagRuns", run] => {
            let (dag, run) = (named(dag, is_id)?, named(run, is_run_id)?);
            if method == b"GET" { Ok(Op::Run(dag, run)) } else { Err(BadMethod("GET, PATCH, DELETE")) }
        }
        [b"dagRuns", run, b"taskInstances"] => get(Op::Instances(named(dag, is_id)?, named(run, is_run_id)?)),
        _ => Err(NoPath),
    }
}
