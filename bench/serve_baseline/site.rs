//! The versions of the policy: the last one, which workers look at without a lock, and the lock under which the next is made.
use std::sync::atomic::{AtomicU32, Ordering};
use std::sync::{Arc, Mutex, MutexGuard, RwLock};

use crate::policy::Policy;

pub struct Site {
    version: AtomicU32,
    last: RwLock<Arc<Policy>>,
    /// The lock of those who make a version, with the versions before the last, if they are kept.
    making: Mutex<Vec<Arc<Policy>>>,
    pub limit: u32,
}

impl Site {
    pub fn of(policy: Policy, limit: u32) -> Site {
        Site { version: AtomicU32::new(policy.version), last: RwLock::new(Arc::new(policy)), making: Mutex::new(Vec::new()), limit }
    }

    pub fn is_last(&self, policy: &Policy) -> bool {
        self.version.load(Ordering::SeqCst) == policy.version
    }

    pub fn last(&self) -> Arc<Policy> {
        self.last.read().unwrap().clone()
    }

    /// Brings what a worker keeps up to the last version.
    pub fn renew(&self, policy: &mut Arc<Policy>) {
        if !self.is_last(policy) {
            *policy = self.last();
        }
    }

    pub fn making(&self) -> MutexGuard<'_, Vec<Arc<Policy>>> {
        self.making.lock().unwrap()
    }

    /// Makes a policy the last version. The lock of those who make one is held. The version before it is kept only with `--cfg keep_versions`.
    pub fn publish(&self, policy: Arc<Policy>, kept: &mut MutexGuard<'_, Vec<Arc<Policy>>>) {
        let version = policy.version;
        let before = std::mem::replace(&mut *self.last.write().unwrap(), policy);
        self.version.store(version, Ordering::SeqCst);
        if cfg!(keep_versions) {
            kept.push(before);
        }
    }
}
