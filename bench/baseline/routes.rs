//! Which operation a method and a path name.
use std::borrow::Cow;

use crate::names::{is_id, is_pool_name, is_run_id, is_variable_key};
use crate::policy::{Need, Resource::*, CREATE, DELETE, EDIT, READ};
use crate::query;

type Text<'a> = Cow<'a, str>;

pub enum Op<'a> {
    Version,
    Dags,
    Dag(Text<'a>),
    PauseDag(Text<'a>),
    Tasks(Text<'a>),
    AllRuns,
    Runs(Text<'a>),
    Trigger(Text<'a>),
    Run(Text<'a>, Text<'a>),
    MarkRun(Text<'a>, Text<'a>),
    DeleteRun(Text<'a>, Text<'a>),
    ClearRun(Text<'a>, Text<'a>),
    Instances(Text<'a>, Text<'a>),
    Instance(Text<'a>, Text<'a>, Text<'a>),
    ClearInstances(Text<'a>),
    Pools,
    AddPool,
    Pool(Text<'a>),
    SetPool(Text<'a>),
    DeletePool(Text<'a>),
    Variables,
    AddVariable,
    Variable(Text<'a>),
    SetVariable(Text<'a>),
    DeleteVariable(Text<'a>),
    EventLogs,
}

impl Op<'_> {
    pub fn needs(&self) -> &'static [Need] {
        match self {
            Op::Version => &[],
            Op::Dags => &[Need::Some(READ)],
            Op::Dag(_) => &[Need::At(READ)],
            Op::PauseDag(_) => &[Need::At(EDIT)],
            Op::Tasks(_) => &[Need::At(READ), Need::On(TaskInstances, READ)],
            Op::AllRuns => &[Need::Some(READ), Need::On(DagRuns, READ)],
            Op::Runs(_) | Op::Run(..) => &[Need::At(READ), Need::On(DagRuns, READ)],
            Op::Trigger(_) => &[Need::At(EDIT), Need::On(DagRuns, CREATE)],
            Op::MarkRun(..) | Op::ClearRun(..) => &[Need::At(EDIT), Need::On(DagRuns, EDIT)],
            Op::DeleteRun(..) => &[Need::At(EDIT), Need::On(DagRuns, DELETE)],
            Op::Instances(..) | Op::Instance(..) => &[Need::At(READ), Need::On(DagRuns, READ), Need::On(TaskInstances, READ)],
            Op::ClearInstances(_) => &[Need::At(EDIT), Need::On(DagRuns, READ), Need::On(TaskInstances, EDIT)],
            Op::Pools | Op::Pool(_) => &[Need::On(Pools, READ)],
            Op::AddPool => &[Need::On(Pools, CREATE)],
            Op::SetPool(_) => &[Need::On(Pools, EDIT)],
            Op::DeletePool(_) => &[Need::On(Pools, DELETE)],
            Op::Variables | Op::Variable(_) => &[Need::On(Variables, READ)],
            Op::AddVariable => &[Need::On(Variables, CREATE)],
            Op::SetVariable(_) => &[Need::On(Variables, EDIT)],
            Op::DeleteVariable(_) => &[Need::On(Variables, DELETE)],
            Op::EventLogs => &[Need::On(AuditLogs, READ)],
        }
    }

    /// The DAG that the path names; an empty text where it names none.
    pub fn dag(&self) -> &str {
        match self {
            Op::Dag(dag) | Op::PauseDag(dag) | Op::Tasks(dag) | Op::Runs(dag) | Op::Trigger(dag) | Op::ClearInstances(dag) => dag,
            Op::Run(dag, _) | Op::MarkRun(dag, _) | Op::DeleteRun(dag, _) | Op::ClearRun(dag, _) => dag,
            Op::Instances(dag, _) | Op::Instance(dag, ..) => dag,
            _ => "",
        }
    }
}

pub enum Unrouted {
    NoPath,
    /// The methods that the path has.
    BadMethod(&'static str),
}

use Unrouted::{BadMethod, NoPath};

/// The text of a segment.
fn decoded(bytes: &[u8]) -> Result<Text<'_>, Unrouted> {
    match query::decoded(bytes, false) {
        Cow::Borrowed(it) => std::str::from_utf8(it).map(Cow::Borrowed).map_err(|_| NoPath),
        Cow::Owned(it) => String::from_utf8(it).map(Cow::Owned).map_err(|_| NoPath),
    }
}

fn named(bytes: &[u8], is_name: impl Fn(&str) -> bool) -> Result<Text<'_>, Unrouted> {
    decoded(bytes).and_then(|it| if is_name(&it) { Ok(it) } else { Err(NoPath) })
}

pub fn route<'a>(method: &[u8], path: &'a [u8]) -> Result<Op<'a>, Unrouted> {
    const MOST: usize = 6;
    let (mut segments, mut count) = ([&b""[..]; MOST], 0);
    for it in path.strip_prefix(b"/api/v1/").ok_or(NoPath)?.split(|&it| it == b'/') {
        *segments.get_mut(count).ok_or(NoPath)? = it;
        count += 1;
    }
    match (&segments[..count], method) {
        ([b"version"], b"GET") => Ok(Op::Version),
        ([b"dags"], b"GET") => Ok(Op::Dags),
        ([b"eventLogs"], b"GET") => Ok(Op::EventLogs),
        ([b"version" | b"dags" | b"eventLogs"], _) => Err(BadMethod("GET")),
        ([b"dags", dag, rest @ ..], _) => route_dag(method, dag, rest),
        ([b"pools"], b"GET") => Ok(Op::Pools),
        ([b"pools"], b"POST") => Ok(Op::AddPool),
        ([b"variables"], b"GET") => Ok(Op::Variables),
        ([b"variables"], b"POST") => Ok(Op::AddVariable),
        ([b"pools" | b"variables"], _) => Err(BadMethod("GET, POST")),
        ([b"pools", name], _) => {
            let name = named(name, is_pool_name)?;
            match method {
                b"GET" => Ok(Op::Pool(name)),
                b"PATCH" => Ok(Op::SetPool(name)),
                b"DELETE" => Ok(Op::DeletePool(name)),
                _ => Err(BadMethod("GET, PATCH, DELETE")),
            }
        }
        ([b"variables", key], _) => route_variable(method, named(key, is_variable_key)?),
        _ => Err(NoPath),
    }
}

fn route_variable<'a>(method: &[u8], key: Text<'a>) -> Result<Op<'a>, Unrouted> {
    match method {
        b"GET" => Ok(Op::Variable(key)),
        b"PATCH" => Ok(Op::SetVariable(key)),
        b"DELETE" => Ok(Op::DeleteVariable(key)),
        _ => Err(BadMethod("GET, PATCH, DELETE")),
    }
}

/// What stands behind `/dags/{dag_id}`.
fn route_dag<'a>(method: &[u8], dag: &'a [u8], rest: &[&'a [u8]]) -> Result<Op<'a>, Unrouted> {
    match rest {
        [] => {
            let dag = named(dag, is_id)?;
            match method {
                b"GET" => Ok(Op::Dag(dag)),
                b"PATCH" => Ok(Op::PauseDag(dag)),
                _ => Err(BadMethod("GET, PATCH")),
            }
        }
        [b"tasks"] => {
            let dag = named(dag, is_id)?;
            if method == b"GET" { Ok(Op::Tasks(dag)) } else { Err(BadMethod("GET")) }
        }
        [b"dagRuns"] => {
            let dag = decoded(dag)?;
            match method {
                b"GET" if dag == "~" => Ok(Op::AllRuns),
                _ if !is_id(&dag) => Err(NoPath),
                b"GET" => Ok(Op::Runs(dag)),
                b"POST" => Ok(Op::Trigger(dag)),
                _ => Err(BadMethod("GET, POST")),
            }
        }
        [b"dagRuns", run, rest @ ..] => route_run(method, named(dag, is_id)?, named(run, is_run_id)?, rest),
        [b"clearTaskInstances"] => {
            let dag = named(dag, is_id)?;
            if method == b"POST" { Ok(Op::ClearInstances(dag)) } else { Err(BadMethod("POST")) }
        }
        _ => Err(NoPath),
    }
}

/// What stands behind `/dagRuns/{dag_run_id}`.
fn route_run<'a>(method: &[u8], dag: Text<'a>, run: Text<'a>, rest: &[&'a [u8]]) -> Result<Op<'a>, Unrouted> {
    let op = match (rest, method) {
        ([], b"GET") => return Ok(Op::Run(dag, run)),
        ([], b"PATCH") => return Ok(Op::MarkRun(dag, run)),
        ([], b"DELETE") => return Ok(Op::DeleteRun(dag, run)),
        ([], _) => return Err(BadMethod("GET, PATCH, DELETE")),
        ([b"clear"], b"POST") => return Ok(Op::ClearRun(dag, run)),
        ([b"clear"], _) => return Err(BadMethod("POST")),
        ([b"taskInstances"], _) => Op::Instances(dag, run),
        ([b"taskInstances", task], _) => Op::Instance(dag, run, named(task, is_id)?),
        _ => return Err(NoPath),
    };
    if method == b"GET" { Ok(op) } else { Err(BadMethod("GET")) }
}
