//! A tick, phase by phase, in place.
use std::cmp::Reverse;
use std::collections::HashMap;
use std::rc::Rc;

use crate::instant;
use crate::rows::State::{Failed, NoState, Queued, Running, Scheduled, Skipped, Success, UpForRetry, UpstreamFailed};
use crate::rows::{Dag, Instance, Plane, State};

const MOST_POINTS: usize = 16;

/// What a rule makes of the finished states upstream, counted: the state, or none to wait.
fn verdict(rule: &str, n: usize, s: usize, f: usize, u: usize, k: usize) -> Option<State> {
    let done = s + f + u + k == n;
    if n == 0 {
        return Some(Scheduled);
    }
    let lines: &[(bool, State)] = match rule {
        "all_success" => &[(f + u > 0, UpstreamFailed), (k > 0, Skipped), (s == n, Scheduled)],
        "all_failed" => &[(s + k > 0, Skipped), (f + u == n, Scheduled)],
        "all_done" => &[(done, Scheduled)],
        "one_success" => &[(s > 0, Scheduled), (k == n, Skipped), (done, UpstreamFailed)],
        "one_failed" => &[(f + u > 0, Scheduled), (done, Skipped)],
        "one_done" => &[(s + f > 0, Scheduled), (done, Skipped)],
        "none_failed" => &[(f + u > 0, UpstreamFailed), (done, Scheduled)],
        "none_failed_min_one_success" => &[(f + u > 0, UpstreamFailed), (k == n, Skipped), (done, Scheduled)],
        "none_skipped" => &[(k > 0, Skipped), (done, Scheduled)],
        "all_skipped" => &[(s + f + u > 0, Skipped), (k == n, Scheduled)],
        _ => &[(true, Scheduled)],
    };
    lines.iter().find(|it| it.0).map(|it| it.1)
}

/// Counts slots that are held of a pool.
fn hold(held: &mut HashMap<Rc<str>, u64>, pool: &Rc<str>, slots: u32) {
    match held.get_mut(pool) {
        Some(of) => *of += u64::from(slots),
        None => _ = held.insert(pool.clone(), slots.into()),
    }
}

/// The state that an instance gets by its rule, if it decides.
fn decided(dag: &Dag, instances: &[Instance], place: usize) -> Option<State> {
    let upstream = &dag.graph.upstream[place];
    let (mut s, mut f, mut u, mut k) = (0, 0, 0, 0);
    for &it in upstream {
        match instances[usize::from(it)].state {
            Success => s += 1,
            Failed => f += 1,
            UpstreamFailed => u += 1,
            Skipped => k += 1,
            _ => {}
        }
    }
    verdict(dag.tasks[place].rule, upstream.len(), s, f, u, k)
}

fn settle(dag: &Dag, instances: &mut [Instance], now: u64) -> bool {
    let mut is_changed = false;
    for &place in &dag.graph.order {
        let place = usize::from(place);
        match instances[place].state {
            UpForRetry if instances[place].retry_at.is_some_and(|it| it <= now) => {
                instances[place].state = Scheduled;
                instances[place].retry_at = None;
                is_changed = true;
            }
            NoState => {
                if let Some(to) = decided(dag, instances, place) {
                    instances[place].state = to;
                    is_changed = true;
                    if to.is_finished() {
                        instances[place].end = Some(now);
                    }
                }
            }
            _ => {}
        }
    }
    is_changed
}

impl Plane {
    /// The runs that are due of each DAG.
    fn create(&mut self, now: u64) -> bool {
        let mut is_changed = false;
        for place in 0..self.dags.len() {
            let dag = &self.dags[place];
            let (false, Some(schedule), Some(mut cursor)) = (dag.is_paused, dag.schedule, dag.cursor) else { continue };
            let (start, catchup) = (dag.start, dag.catchup);
            let (mut points, mut count) = ([(0, 0); MOST_POINTS], 0);
            while count < MOST_POINTS {
                let Some(point) = schedule.next(start, cursor) else { break };
                let Some(end) = schedule.next(start, point + 1).filter(|&it| it <= now) else { break };
                if !catchup {
                    count = 0;
                }
                points[count] = (point, end);
                count += 1;
                cursor = end;
            }
            if count == 0 {
                continue;
            }
            for &(point, end) in &points[..count] {
                let id = format!("scheduled__{}", instant::text_of(point));
                self.add_run(place, id.into(), false, point, end);
            }
            self.dags[place].cursor = Some(cursor);
            is_changed = true;
        }
        is_changed
    }

    /// Queued runs start, as many as their DAG lets.
    fn start(&mut self, now: u64) -> bool {
        let (mut is_changed, mut running) = (false, vec![0; self.dags.len()]);
        for &it in &self.busy {
            running[self.runs[it].dag] += u32::from(self.runs[it].state == Running);
        }
        for &it in &self.busy {
            let run = &mut self.runs[it];
            let dag = &self.dags[run.dag];
            if run.state == Queued && !dag.is_paused && running[run.dag] < dag.most_active {
                running[run.dag] += 1;
                run.state = Running;
                run.start = Some(now);
                is_changed = true;
            }
        }
        is_changed
    }

    /// Instances are settled, and queued while their pools have open slots.
    fn settle_and_queue(&mut self, now: u64) -> bool {
        let (mut is_changed, mut waiting) = (false, Vec::new());
        let mut held: HashMap<Rc<str>, u64> = HashMap::new();
        for &it in &self.busy {
            let run = &mut self.runs[it];
            let dag = &self.dags[run.dag];
            let is_live = run.state == Running && !dag.is_paused;
            if is_live {
                is_changed |= settle(dag, &mut run.instances, now);
            }
            for (place, (instance, task)) in run.instances.iter().zip(&dag.tasks).enumerate() {
                match instance.state {
                    Queued | Running => hold(&mut held, &task.pool, task.pool_slots),
                    Scheduled if is_live => waiting.push((Reverse(task.weight), it, place)),
                    _ => {}
                }
            }
        }
        waiting.sort_unstable();
        for (_, it, place) in waiting {
            let run = &mut self.runs[it];
            let task = &self.dags[run.dag].tasks[place];
            let slots = self.pools.get(&task.pool).copied().unwrap_or(0);
            let occupied = held.get(&task.pool).copied().unwrap_or(0);
            if occupied + u64::from(task.pool_slots) <= slots {
                hold(&mut held, &task.pool, task.pool_slots);
                run.instances[place].state = Queued;
                is_changed = true;
            }
        }
        is_changed
    }

    /// Runs whose instances have all finished end.
    fn finish(&mut self, now: u64) -> bool {
        let mut is_changed = false;
        for &it in &self.busy {
            let run = &mut self.runs[it];
            if run.state == Running && run.instances.iter().all(|it| it.state.is_finished()) {
                let graph = &self.dags[run.dag].graph;
                let fails = |(place, it): (usize, &Instance)| graph.downstream[place].is_empty() && matches!(it.state, Failed | UpstreamFailed);
                run.state = if run.instances.iter().enumerate().any(fails) { Failed } else { Success };
                run.end = Some(now);
                is_changed = true;
            }
        }
        is_changed
    }

    pub fn tick(&mut self, now: u64) -> bool {
        let created = self.create(now);
        let started = self.start(now);
        let queued = self.settle_and_queue(now);
        let finished = self.finish(now);
        self.keep_busy();
        created || started || queued || finished
    }
}
