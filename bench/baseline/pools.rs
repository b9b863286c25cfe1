//! Pools and variables.
use crate::answer::{fault, Fault};
use crate::audit::Author;
use crate::json::Value;
use crate::names::{is_pool_name, is_variable_key};
use crate::operations::{bad_member, object};
use crate::plane::{Plane, Pool, MOST_POOLS, MOST_SLOTS, MOST_VARIABLES};
use crate::query::Window;
use crate::rows::{put_pool, put_variable};
use crate::text::{put, put_listing, put_number};

fn name<'v>(body: &'v Value<'_>, member: &str, is_name: fn(&str) -> bool) -> Result<&'v str, Fault> {
    body.get(member).and_then(Value::text).filter(|it| is_name(it)).ok_or_else(|| bad_member(member))
}

fn slots(body: &Value<'_>) -> Result<u32, Fault> {
    match body.get("slots") {
        Some(&Value::Integer(it)) if (0..=MOST_SLOTS).contains(&it) => Ok(it as u32),
        _ => Err(bad_member("slots")),
    }
}

fn no_such(what: &str, name: &str) -> Fault {
    fault(404, format!("no such {what}: {name}"))
}

pub fn list_pools(plane: &Plane, window: Window, out: &mut Vec<u8>) {
    let page = plane.pools.iter().skip(window.offset).take(window.limit);
    put_listing(out, "pools", page, plane.pools.len(), |out, (name, pool)| put_pool(out, name, pool));
}

pub fn show_pool(plane: &Plane, name: &str, out: &mut Vec<u8>) -> Result<(), Fault> {
    let pool = plane.pools.get(name).ok_or_else(|| no_such("pool", name))?;
    put_pool(out, name, pool);
    Ok(())
}

pub fn add_pool(plane: &mut Plane, body: &[u8], author: &Author<'_>, out: &mut Vec<u8>) -> Result<(), Fault> {
    let body = object(body)?;
    let (name, slots) = (name(&body, "name", is_pool_name)?, slots(&body)?);
    if plane.pools.contains_key(name) {
        return Err(fault(409, format!("exists: {name}")));
    }
    if plane.pools.len() >= MOST_POOLS {
        return Err(fault(409, "too many"));
    }
    plane.audit.has_room()?;
    plane.audit.add(author, "post_pool", None, None);
    plane.pools.insert(name.into(), Pool::of(slots));
    show_pool(plane, name, out)
}

pub fn set_pool(plane: &mut Plane, name: &str, body: &[u8], author: &Author<'_>, out: &mut Vec<u8>) -> Result<(), Fault> {
    let slots = slots(&object(body)?)?;
    let pool = plane.pools.get(name).ok_or_else(|| no_such("pool", name))?;
    if pool.slots != slots {
        plane.audit.has_room()?;
        plane.audit.add(author, "patch_pool", None, None);
        if let Some(pool) = plane.pools.get_mut(name) {
            pool.slots = slots;
        }
    }
    show_pool(plane, name, out)
}

pub fn delete_pool(plane: &mut Plane, name: &str, author: &Author<'_>) -> Result<(), Fault> {
    let pool = plane.pools.get(name).ok_or_else(|| no_such("pool", name))?;
    if name == "default_pool" {
        return Err(fault(409, "default pool"));
    }
    if pool.tasks > 0 {
        return Err(fault(409, format!("pool in use: {name}")));
    }
    plane.audit.has_room()?;
    plane.audit.add(author, "delete_pool", None, None);
    plane.pools.remove(name);
    Ok(())
}

pub fn list_variables(plane: &Plane, window: Window, out: &mut Vec<u8>) {
    put(out, "{\"total_entries\":");
    put_number(out, plane.variables.len() as u64);
    put(out, ",\"variables\":[");
    for (at, (key, value)) in plane.variables.iter().skip(window.offset).take(window.limit).enumerate() {
        if at > 0 {
            out.push(b',');
        }
        put_variable(out, key, value);
    }
    put(out, "]}");
}

pub fn show_variable(plane: &Plane, key: &str, out: &mut Vec<u8>) -> Result<(), Fault> {
    let value = plane.variables.get(key).ok_or_else(|| no_such("variable", key))?;
    put_variable(out, key, value);
    Ok(())
}

pub fn add_variable(plane: &mut Plane, body: &[u8], author: &Author<'_>, out: &mut Vec<u8>) -> Result<(), Fault> {
    let body = object(body)?;
    let (key, value) = (name(&body, "key", is_variable_key)?, name(&body, "value", |_| true)?);
    if plane.variables.contains_key(key) {
        return Err(fault(409, format!("exists: {key}")));
    }
    if plane.variables.len() >= MOST_VARIABLES {
        return Err(fault(409, "too many"));
    }
    plane.audit.has_room()?;
    plane.audit.add(author, "post_variable", None, None);
    plane.variables.insert(key.into(), value.into());
    show_variable(plane, key, out)
}

pub fn set_variable(plane: &mut Plane, key: &str, body: &[u8], author: &Author<'_>, out: &mut Vec<u8>) -> Result<(), Fault> {
    let body = object(body)?;
    let value = name(&body, "value", |_| true)?;
    let old = plane.variables.get(key).ok_or_else(|| no_such("variable", key))?;
    if **old != *value {
        plane.audit.has_room()?;
        plane.audit.add(author, "patch_variable", None, None);
        plane.variables.insert(key.into(), value.into());
    }
    show_variable(plane, key, out)
}

pub fn delete_variable(plane: &mut Plane, key: &str, author: &Author<'_>) -> Result<(), Fault> {
    if !plane.variables.contains_key(key) {
        return Err(no_such("variable", key));
    }
    plane.audit.has_room()?;
    plane.audit.add(author, "delete_variable", None, None);
    plane.variables.remove(key);
    Ok(())
}
