//! How names are spelled.

fn is_spelled(text: &str, most: usize, allows: impl Fn(u8) -> bool) -> bool {
    (1..=most).contains(&text.len()) && text.bytes().all(allows)
}

/// The id of a DAG or a task.
pub fn is_id(text: &str) -> bool {
    is_spelled(text, 250, |it| it.is_ascii_alphanumeric() || matches!(it, b'_' | b'-' | b'.'))
}

pub fn is_run_id(text: &str) -> bool {
    is_spelled(text, 250, |it| it.is_ascii_alphanumeric() || matches!(it, b'_' | b'-' | b'.' | b'~' | b':' | b'+')) && text != "~"
}

pub fn is_pool_name(text: &str) -> bool {
    is_spelled(text, 250, |it| matches!(it, b' '..=b'~'))
}

pub fn is_variable_key(text: &str) -> bool {
    is_pool_name(text)
}

/// The name of a user or a role.
pub fn is_account_name(text: &str) -> bool {
    is_spelled(text, 64, |it| matches!(it, b' '..=b'~'))
}
