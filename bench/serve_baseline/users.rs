//! The users of a version, in order of their names, and their tokens.
use std::collections::HashMap;
use std::sync::Arc;

const PAGE: usize = 64;

pub struct User {
    pub name: Arc<str>,
    pub digest: [u8; 32],
    /// Places of roles, in order of their names.
    pub roles: Vec<u32>,
}

/// Pages of users, which versions share but for the one that a change touches, and an index that they share while nobody's token changes.
#[derive(Clone)]
pub struct Users {
    pages: Vec<Arc<[Arc<User>]>>,
    by_digest: Arc<HashMap<[u8; 32], u32>>,
    by_name: Arc<HashMap<Arc<str>, u32>>,
    pub count: usize,
}

impl Users {
    pub fn of(mut rows: Vec<User>) -> Users {
        rows.sort_unstable_by(|a, b| a.name.cmp(&b.name));
        let by_digest = rows.iter().enumerate().map(|(place, it)| (it.digest, place as u32)).collect();
        let by_name = rows.iter().enumerate().map(|(place, it)| (it.name.clone(), place as u32)).collect();
        let (count, rows) = (rows.len(), rows.into_iter().map(Arc::new).collect::<Vec<_>>());
        Users { pages: rows.chunks(PAGE).map(Arc::from).collect(), by_digest: Arc::new(by_digest), by_name: Arc::new(by_name), count }
    }

    pub fn at(&self, place: usize) -> &Arc<User> {
        &self.pages[place / PAGE][place % PAGE]
    }

    pub fn all(&self) -> impl Iterator<Item = &Arc<User>> {
        self.pages.iter().flat_map(|it| it.iter())
    }

    pub fn place_of_name(&self, name: &str) -> Option<usize> {
        self.by_name.get(name).map(|&it| it as usize)
    }

    pub fn of_digest(&self, digest: &[u8; 32]) -> Option<&User> {
        self.by_digest.get(digest).map(|&it| &**self.at(it as usize))
    }

    pub fn place_of_digest(&self, digest: &[u8; 32]) -> Option<usize> {
        self.by_digest.get(digest).map(|&it| it as usize)
    }

    /// Puts a user in the place of the one there, who has the same name.
    pub fn put(&mut self, place: usize, user: User) {
        let old = self.at(place).digest;
        if old != user.digest {
            let index = Arc::make_mut(&mut self.by_digest);
            index.remove(&old);
            index.insert(user.digest, place as u32);
        }
        let page = &mut self.pages[place / PAGE];
        let mut rows: Vec<Arc<User>> = page.to_vec();
        rows[place % PAGE] = Arc::new(user);
        *page = rows.into();
    }
}
