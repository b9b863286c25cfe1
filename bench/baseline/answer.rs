//! Answers: status line, fields, and the body of a fault.
use std::borrow::Cow;

use crate::text::{put, put_escaped, put_number};

pub struct Fault {
    pub status: u16,
    pub detail: Cow<'static, str>,
}

pub fn fault(status: u16, detail: impl Into<Cow<'static, str>>) -> Fault {
    Fault { status, detail: detail.into() }
}

fn title(status: u16) -> &'static str {
    match status {
        200 => "OK",
        204 => "No Content",
        400 => "Bad Request",
        401 => "Unauthorized",
        403 => "Forbidden",
        404 => "Not Found",
        405 => "Method Not Allowed",
        409 => "Conflict",
        413 => "Content Too Large",
        431 => "Request Header Fields Too Large",
        501 => "Not Implemented",
        _ => "Insufficient Storage",
    }
}

pub fn put_fault(out: &mut Vec<u8>, fault: &Fault) {
    put(out, "{\"detail\":\"");
    put_escaped(out, &fault.detail);
    put(out, "\",\"status\":");
    put_number(out, fault.status.into());
    put(out, ",\"title\":\"");
    put(out, title(fault.status));
    put(out, "\",\"type\":\"about:blank\"}");
}

/// Writes the head of an answer: without a type and a length, where it has no content. Where the answer was decided under a
/// policy, `seen` is its version, and how many entries there are where it was decided on them.
pub fn put_head(out: &mut Vec<u8>, status: u16, length: usize, allow: Option<&str>, seen: Option<(u32, Option<usize>)>, closes: bool) {
    put(out, "HTTP/1.1 ");
    put_number(out, status.into());
    put(out, " ");
    put(out, title(status));
    if status != 204 {
        put(out, if status == 200 { "\r\nContent-Type: application/json" } else { "\r\nContent-Type: application/problem+json" });
        put(out, "\r\nContent-Length: ");
        put_number(out, length as u64);
    }
    if let Some(allow) = allow {
        put(out, "\r\nAllow: ");
        put(out, allow);
    }
    if status == 401 {
        put(out, "\r\nWWW-Authenticate: Bearer");
    }
    if let Some((version, entries)) = seen {
        put(out, "\r\nX-Policy-Version: ");
        put_number(out, version.into());
        if let Some(entries) = entries {
            put(out, "\r\nX-Plane-Seq: ");
            put_number(out, entries as u64);
        }
    }
    put(out, if closes { "\r\nConnection: close\r\n\r\n" } else { "\r\n\r\n" });
}

/// Writes a refusal that no policy decided. Without its body, where a HEAD is answered.
pub fn refuse(out: &mut Vec<u8>, fault: &Fault, allow: Option<&str>, closes: bool, is_bare: bool) {
    let mut body = Vec::with_capacity(128);
    put_fault(&mut body, fault);
    put_head(out, fault.status, body.len(), allow, None, closes);
    if !is_bare {
        out.extend_from_slice(&body);
    }
}
