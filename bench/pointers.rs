//! A derivation tree with pointers: a node knows its origin, the first node below it and its neighbours below the same
//! origin, and a hash map leads from a place to its node. The second of the two that bench/trees.py compares the trees
//! of `maptree` with. It has no positions.

mod calls;

use calls::Place;
use std::collections::{HashMap, HashSet};
use std::hash::{BuildHasherDefault, Hasher};

/// The number of no node.
const NONE: u32 = u32::MAX;

#[derive(Clone, Copy)]
struct Node {
    place: Place,
    origin: u32,
    first: u32,
    before: u32,
    behind: u32,
}

struct Tree {
    nodes: Vec<Node>,
    /// The numbers of nodes that were let go.
    free: Vec<u32>,
    by_place: HashMap<Place, u32, BuildHasherDefault<Mixer>>,
    root: u32,
}

/// A run that was cut out: its nodes, and behind which one below the same origin its first node stood.
struct Run {
    nodes: Vec<u32>,
    before: u32,
}

/// A hash of few instructions, since places are no secret.
#[derive(Default)]
struct Mixer(u64);

impl Hasher for Mixer {
    fn finish(&self) -> u64 {
        self.0
    }

    fn write(&mut self, bytes: &[u8]) {
        for byte in bytes {
            self.write_u64(u64::from(*byte));
        }
    }

    fn write_u16(&mut self, n: u16) {
        self.write_u64(u64::from(n));
    }

    fn write_u32(&mut self, n: u32) {
        self.write_u64(u64::from(n));
    }

    fn write_u64(&mut self, n: u64) {
        let mixed = (self.0 ^ n).wrapping_mul(0x9e37_79b9_7f4a_7c15);
        self.0 = mixed ^ (mixed >> 29);
    }
}

fn some(node: u32) -> Option<u32> {
    (node != NONE).then_some(node)
}

impl Tree {
    fn at(&self, node: u32) -> &Node {
        &self.nodes[node as usize]
    }

    fn at_mut(&mut self, node: u32) -> &mut Node {
        &mut self.nodes[node as usize]
    }

    /// The node that comes next in a run whose first node is `top`: the first one below this one, or one behind it or
    /// behind one from which it derives.
    fn next(&self, top: u32, node: u32) -> u32 {
        if self.at(node).first != NONE {
            return self.at(node).first;
        }
        let mut node = node;
        while node != top {
            if self.at(node).behind != NONE {
                return self.at(node).behind;
            }
            node = self.at(node).origin;
        }
        NONE
    }

    /// The nodes of a run, each before what derives from it.
    fn run(&self, top: u32) -> impl Iterator<Item = u32> + '_ {
        std::iter::successors(some(top), move |node| some(self.next(top, *node)))
    }

    /// From its origin to the root.
    fn origins(&self, node: u32) -> impl Iterator<Item = u32> + '_ {
        std::iter::successors(some(self.at(node).origin), move |node| some(self.at(*node).origin))
    }

    /// Lets a node stand behind another below its origin, or as the first one there.
    fn link(&mut self, node: u32, before: u32) {
        let origin = self.at(node).origin;
        let behind = if before != NONE {
            std::mem::replace(&mut self.at_mut(before).behind, node)
        } else if origin != NONE {
            std::mem::replace(&mut self.at_mut(origin).first, node)
        } else {
            self.root = node;
            NONE
        };
        if behind != NONE {
            self.at_mut(behind).before = node;
        }
        self.at_mut(node).before = before;
        self.at_mut(node).behind = behind;
    }

    fn unlink(&mut self, node: u32) {
        let Node { origin, before, behind, .. } = *self.at(node);
        if before != NONE {
            self.at_mut(before).behind = behind;
        } else if origin != NONE {
            self.at_mut(origin).first = behind;
        } else {
            self.root = NONE;
        }
        if behind != NONE {
            self.at_mut(behind).before = before;
        }
    }
}

impl calls::Tree for Tree {
    type Node = u32;
    type Run = u32;
    type Cut = Vec<Run>;

    fn root(place: Place) -> Tree {
        let root = Node { place, origin: NONE, first: NONE, before: NONE, behind: NONE };
        Tree { nodes: vec![root], free: Vec::new(), by_place: HashMap::from_iter([(place, 0)]), root: 0 }
    }

    fn find(&self, place: Place) -> Option<u32> {
        self.by_place.get(&place).copied()
    }

    fn place(&self, node: u32) -> Place {
        self.at(node).place
    }

    fn run_len(&self, node: u32) -> usize {
        self.run(node).count()
    }

    fn origin(&self, node: u32) -> Option<u32> {
        some(self.at(node).origin)
    }

    fn is_origin(&self, a: u32, b: u32) -> bool {
        self.origins(b).any(|node| node == a)
    }

    fn rename(&mut self, node: u32, place: Place) {
        let old = std::mem::replace(&mut self.at_mut(node).place, place);
        self.by_place.remove(&old);
        self.by_place.insert(place, node);
    }

    fn insert_below(&mut self, origin: u32, place: Place) {
        let made = Node { place, origin, first: NONE, before: NONE, behind: NONE };
        let node = match self.free.pop() {
            Some(node) => {
                *self.at_mut(node) = made;
                node
            }
            None => {
                self.nodes.push(made);
                self.nodes.len() as u32 - 1
            }
        };
        self.link(node, NONE);
        self.by_place.insert(place, node);
    }

    /// The first nodes of the runs. From each named node it goes to its origins, up to one that is named.
    fn outer_runs(&self, places: &[Place]) -> Vec<u32> {
        let nodes: Vec<u32> = places.iter().filter_map(|place| self.find(*place)).collect();
        if nodes.len() < 2 {
            return nodes;
        }
        let named: HashSet<u32, BuildHasherDefault<Mixer>> = nodes.iter().copied().collect();
        nodes.into_iter().filter(|node| !self.origins(*node).any(|origin| named.contains(&origin))).collect()
    }

    fn cut(&mut self, runs: &[u32]) -> Vec<Run> {
        let mut cut = Vec::with_capacity(runs.len());
        for top in runs {
            let nodes: Vec<u32> = self.run(*top).collect();
            for node in &nodes {
                let place = self.place(*node);
                self.by_place.remove(&place);
            }
            cut.push(Run { nodes, before: self.at(*top).before });
            self.unlink(*top);
        }
        cut
    }

    fn nodes_in(cut: &Vec<Run>) -> usize {
        cut.iter().map(|run| run.nodes.len()).sum()
    }

    /// The run that was cut out last is the first to be put back, so that the one before each is there.
    fn splice(&mut self, cut: Vec<Run>) {
        for run in cut.iter().rev() {
            self.link(run.nodes[0], run.before);
            for node in &run.nodes {
                let place = self.place(*node);
                self.by_place.insert(place, *node);
            }
        }
    }

    fn forget(&mut self, cut: Vec<Run>) {
        for run in cut {
            self.free.extend(run.nodes);
        }
    }

    fn in_order(&self) -> Vec<u32> {
        self.run(self.root).collect()
    }

    fn links(&self) -> Vec<(Place, Option<Place>)> {
        self.run(self.root).map(|node| (self.place(node), self.origin(node).map(|origin| self.place(origin)))).collect()
    }
}

fn main() {
    calls::run::<Tree>();
}
