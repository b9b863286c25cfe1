//! The graph of a DAG's tasks: who stands before and after whom, and the order in which they are settled.
#![allow(dead_code)]

use std::cmp::Reverse;
use std::collections::{BinaryHeap, HashMap};

/// Tasks by their places in the definition.
pub struct Graph {
    pub upstream: Vec<Vec<u16>>,
    pub downstream: Vec<Vec<u16>>,
    /// Of the tasks whose upstream ones have all been taken, the earliest in the definition comes next.
    pub order: Vec<u16>,
}

/// The graph of tasks with these ids and upstream ids; none where an id stands twice or is missing, or there is a cycle.
pub fn graph(ids: &[&str], before: &[Vec<&str>]) -> Option<Graph> {
    let mut places = HashMap::with_capacity(ids.len());
    for (place, id) in ids.iter().enumerate() {
        if places.insert(*id, place as u16).is_some() {
            return None;
        }
    }
    let mut upstream = Vec::with_capacity(ids.len());
    let mut downstream = vec![Vec::new(); ids.len()];
    for (place, names) in before.iter().enumerate() {
        let mut row = names.iter().map(|it| places.get(it).copied()).collect::<Option<Vec<u16>>>()?;
        row.sort_unstable();
        row.dedup();
        row.iter().for_each(|&it| downstream[usize::from(it)].push(place as u16));
        upstream.push(row);
    }
    let mut left: Vec<usize> = upstream.iter().map(Vec::len).collect();
    let mut ready: BinaryHeap<Reverse<u16>> = (0..ids.len() as u16).filter(|&it| left[usize::from(it)] == 0).map(Reverse).collect();
    let mut order = Vec::with_capacity(ids.len());
    while let Some(Reverse(place)) = ready.pop() {
        order.push(place);
        for &it in &downstream[usize::from(place)] {
            left[usize::from(it)] -= 1;
            if left[usize::from(it)] == 0 {
                ready.push(Reverse(it));
            }
        }
    }
    (order.len() == ids.len()).then_some(Graph { upstream, downstream, order })
}
