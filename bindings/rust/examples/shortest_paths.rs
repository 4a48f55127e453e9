//! Shortest paths from one corner of a grid to all its nodes, by several threads over one queue.
//!
//! shortest_paths [SIDE] [THREADS]
//!
//! A label is a node with the length of a path to it: the item's key is the length, its load the node.
//! The queue is relaxed, so a node may be examined before its shortest path is known. It is then
//! examined again with the better label, and the distances are right once no label is open. Labels are
//! open while they wait in the queue or are examined, which `Work` counts. The distances are compared
//! with those of Dijkstra's algorithm.

use klsm::{InsertError, Member, Queue, Work};
use std::cmp::Reverse;
use std::collections::BinaryHeap;
use std::env;
use std::error::Error;
use std::sync::atomic::{AtomicU64, Ordering::SeqCst};
use std::thread;

/// A square grid, whose edges have lengths from 1 to 100.
struct Grid {
    side: usize,
}

impl Grid {
    fn len(&self) -> usize {
        self.side * self.side
    }

    /// The nodes beside this one, each with the length of the edge.
    fn neighbours(&self, node: usize) -> impl Iterator<Item = (usize, u64)> {
        let (side, row, column) = (self.side, node / self.side, node % self.side);
        let beside = [
            (row > 0).then(|| node - side),
            (column > 0).then(|| node - 1),
            (column + 1 < side).then(|| node + 1),
            (row + 1 < side).then(|| node + side),
        ];
        let edges = beside.into_iter().flatten();
        edges.map(move |other| (other, length(node.min(other), node.max(other))))
    }
}

/// A length that is as good as random.
fn length(from: usize, to: usize) -> u64 {
    let mixed = (from as u64 ^ (to as u64) << 32).wrapping_mul(0x9e37_79b9_7f4a_7c15);
    1 + (mixed ^ mixed >> 29).wrapping_mul(0xbf58_476d_1ce4_e5b9) % 100
}

/// What the threads share beside the queue.
struct Search<'grid> {
    grid: &'grid Grid,
    distances: Vec<AtomicU64>,
    labels: Work,
}

impl Search<'_> {
    /// Puts in a label if it is better than all before it for its node.
    fn offer(&self, member: &mut Member<'_>, node: usize, length: u64) -> Result<(), InsertError> {
        if self.distances[node].fetch_min(length, SeqCst) <= length {
            return Ok(());
        }
        self.labels.insert(member, length, node as u64)
    }

    /// Examines labels until none is open. How many it examined, or why one could not be put in: then the search
    /// is of no use, so all threads are stopped.
    fn work(&self, mut member: Member<'_>) -> Result<u64, InsertError> {
        while let Ok(label) = self.labels.next(&mut member) {
            let node = label.load as usize;
            if label.key == self.distances[node].load(SeqCst) {
                for (other, length) in self.grid.neighbours(node) {
                    let offered = self.offer(&mut member, other, label.key + length);
                    offered.inspect_err(|_| self.labels.stop())?;
                }
            }
            // Only now that the labels that this one led to are open.
            label.done();
        }
        Ok(member.deleted_count())
    }
}

/// The distances, and how many labels were examined.
fn search(grid: &Grid, threads: usize) -> Result<(Vec<u64>, u64), Box<dyn Error>> {
    let mut queue = Queue::new(threads)?;
    let search = Search {
        grid,
        distances: (0..grid.len()).map(|_| AtomicU64::new(u64::MAX)).collect(),
        labels: Work::new(),
    };
    for mut member in queue.members().take(1) {
        search.offer(&mut member, 0, 0)?;
    }
    let examined: Result<u64, InsertError> = thread::scope(|scope| {
        let spawn = |member| scope.spawn(|| search.work(member));
        let running: Vec<_> = queue.members().map(spawn).collect();
        let join = |thread: thread::ScopedJoinHandle<_>| thread.join().expect("no thread panics");
        running.into_iter().map(join).sum()
    });
    let (examined, account) = (examined?, queue.finish()?);
    assert!(account.left.is_empty() && account.inserted == examined);
    let distances = search.distances.into_iter().map(AtomicU64::into_inner);
    Ok((distances.collect(), examined))
}

/// The distances by one thread with an exact queue.
fn dijkstra(grid: &Grid) -> Vec<u64> {
    let mut distances = vec![u64::MAX; grid.len()];
    let mut labels = BinaryHeap::from([Reverse((0, 0))]);
    distances[0] = 0;
    while let Some(Reverse((reached, node))) = labels.pop() {
        if reached > distances[node] {
            continue;
        }
        for (other, length) in grid.neighbours(node) {
            if reached + length < distances[other] {
                distances[other] = reached + length;
                labels.push(Reverse((reached + length, other)));
            }
        }
    }
    distances
}

fn main() -> Result<(), Box<dyn Error>> {
    let numbers: Result<Vec<usize>, _> = env::args().skip(1).map(|word| word.parse()).collect();
    let numbers = numbers?;
    let number = |place: usize, default| numbers.get(place).copied().unwrap_or(default);
    let (side, threads) = (number(0, 300).max(1), number(1, 4));
    let grid = Grid { side };
    let (distances, examined) = search(&grid, threads)?;
    if distances != dijkstra(&grid) {
        return Err("a distance is wrong".into());
    }
    let farthest = distances.iter().max().copied().unwrap_or(0);
    println!("{} nodes, the farthest at {farthest}", grid.len());
    eprintln!("{examined} labels were examined by {threads} threads");
    Ok(())
}
