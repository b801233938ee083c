//! A derivation tree as a plain vector of nodes in preorder, each with its depth: the first of the two that
//! bench/trees.py compares the trees of `maptree` with.

mod calls;

use calls::Place;
use std::collections::BTreeSet;
use std::ops::Range;

const MOST: usize = 256;

#[derive(Clone, Copy)]
struct Node {
    place: Place,
    depth: usize,
}

struct Tree {
    nodes: Vec<Node>,
}

struct Cut {
    /// Behind how many of the nodes that are left each part stood.
    gaps: Vec<usize>,
    parts: Vec<Vec<Node>>,
}

impl Tree {
    fn deeper(&self, from: usize, depth: usize) -> usize {
        let nodes = &self.nodes[from..];
        nodes.iter().position(|node| node.depth <= depth).unwrap_or(nodes.len())
    }

    fn run_of(&self, i: usize) -> Range<usize> {
        i..i + 1 + self.deeper(i + 1, self.nodes[i].depth)
    }
}

impl calls::Tree for Tree {
    type Node = usize;
    type Run = Range<usize>;
    type Cut = Cut;

    fn root(place: Place) -> Tree {
        Tree { nodes: vec![Node { place, depth: 0 }] }
    }

    fn find(&self, place: Place) -> Option<usize> {
        self.nodes.iter().position(|node| node.place == place)
    }

    fn place(&self, i: usize) -> Place {
        self.nodes[i].place
    }

    fn run_len(&self, i: usize) -> usize {
        self.run_of(i).len()
    }

    fn origin(&self, i: usize) -> Option<usize> {
        self.nodes[..i].iter().rposition(|node| node.depth < self.nodes[i].depth)
    }

    fn is_origin(&self, a: usize, b: usize) -> bool {
        a < b && self.nodes[a + 1..=b].iter().all(|node| node.depth > self.nodes[a].depth)
    }

    fn rename(&mut self, i: usize, place: Place) {
        self.nodes[i].place = place;
    }

    fn insert_below(&mut self, i: usize, place: Place) {
        let depth = self.nodes[i].depth + 1;
        self.nodes.insert(i + 1, Node { place, depth });
    }

    fn outer_runs(&self, places: &[Place]) -> Vec<Range<usize>> {
        if let [place] = places {
            return self.find(*place).map(|i| self.run_of(i)).into_iter().collect();
        }
        let named: BTreeSet<Place> = places.iter().copied().collect();
        let mut runs = Vec::new();
        let mut i = 0;
        while i < self.nodes.len() {
            if named.contains(&self.nodes[i].place) {
                let run = self.run_of(i);
                i = run.end;
                runs.push(run);
            } else {
                i += 1;
            }
        }
        runs
    }

    fn cut(&mut self, runs: &[Range<usize>]) -> Cut {
        let mut left = Vec::with_capacity(self.nodes.capacity());
        let mut cut = Cut { gaps: Vec::new(), parts: Vec::new() };
        let mut from = 0;
        for run in runs {
            left.extend_from_slice(&self.nodes[from..run.start]);
            for part in self.nodes[run.clone()].chunks(MOST) {
                cut.gaps.push(left.len());
                cut.parts.push(part.to_vec());
            }
            from = run.end;
        }
        left.extend_from_slice(&self.nodes[from..]);
        self.nodes = left;
        cut
    }

    fn nodes_in(cut: &Cut) -> usize {
        cut.parts.iter().map(Vec::len).sum()
    }

    fn splice(&mut self, cut: Cut) {
        let mut whole = Vec::with_capacity(self.nodes.capacity());
        let mut from = 0;
        for (gap, part) in cut.gaps.iter().zip(&cut.parts) {
            whole.extend_from_slice(&self.nodes[from..*gap]);
            whole.extend_from_slice(part);
            from = *gap;
        }
        whole.extend_from_slice(&self.nodes[from..]);
        self.nodes = whole;
    }

    fn forget(&mut self, _: Cut) {}

    fn in_order(&self) -> Vec<usize> {
        (0..self.nodes.len()).collect()
    }

    fn links(&self) -> Vec<(Place, Option<Place>)> {
        let mut path: Vec<Place> = Vec::new();
        let mut links = Vec::with_capacity(self.nodes.len());
        for node in &self.nodes {
            path.truncate(node.depth);
            links.push((node.place, path.last().copied()));
            path.push(node.place);
        }
        links
    }
}

fn main() {
    calls::run::<Tree>();
}
