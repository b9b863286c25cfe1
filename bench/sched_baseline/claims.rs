//! Claims and reports: a claim goes over all busy runs.
use std::cmp::Reverse;

use crate::instant::{LAST, SECOND};
use crate::rows::State::{Failed, Queued, Running, UpForRetry};
use crate::rows::{Claim, Plane, State};

impl Plane {
    pub fn claim(&mut self, now: u64) -> Option<Claim> {
        let mut first = None;
        for &it in &self.busy {
            let run = &self.runs[it];
            for (place, (instance, task)) in run.instances.iter().zip(&self.dags[run.dag].tasks).enumerate() {
                if instance.state == Queued && instance.tries < u32::MAX {
                    let key = (Reverse(task.weight), it, place);
                    if first.is_none_or(|so_far| key < so_far) {
                        first = Some(key);
                    }
                }
            }
        }
        let (_, it, place) = first?;
        let run = &mut self.runs[it];
        let instance = &mut run.instances[place];
        (instance.state, instance.tries, instance.start, instance.end) = (Running, instance.tries + 1, Some(now), None);
        Some(Claim { run: it, task: self.dags[run.dag].tasks[place].id.clone(), tries: instance.tries })
    }

    pub fn report(&mut self, claim: &Claim, to: State, now: u64) -> bool {
        let Some(run) = self.runs.get_mut(claim.run) else { return false };
        let tasks = &self.dags[run.dag].tasks;
        let Some(place) = tasks.iter().position(|it| it.id == claim.task) else { return false };
        let instance = &mut run.instances[place];
        if instance.state != Running || instance.tries != claim.tries {
            return false;
        }
        let again = now + u64::from(tasks[place].retry_delay) * SECOND;
        let is_tried = to == Failed && u64::from(claim.tries) <= instance.most_tries && again <= LAST;
        instance.state = if is_tried { UpForRetry } else { to };
        instance.retry_at = if is_tried { Some(again) } else { instance.retry_at };
        instance.end = Some(now);
        if !run.is_busy() {
            if let Ok(at) = self.busy.binary_search(&claim.run) {
                self.busy.remove(at);
            }
        }
        true
    }
}
