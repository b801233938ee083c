//! The calls of `maptree` on a tree of another kind, as its test of large trees makes them. A line a call: its name,
//! how often it was made, the nanoseconds that took, and the sum of what it answered.

use std::time::Instant;

const CALLS: u32 = 1_000;
const PASSES: u32 = 20;

#[derive(Clone, Copy, PartialEq, Eq, PartialOrd, Ord, Hash)]
pub struct Place {
    pub space: u16,
    pub page: u32,
}

/// A derivation tree.
pub trait Tree {
    /// A node as calls name it.
    type Node: Copy;
    /// A run that can be cut out.
    type Run;
    /// What was cut out.
    type Cut;

    fn root(place: Place) -> Self;
    fn find(&self, place: Place) -> Option<Self::Node>;
    fn place(&self, node: Self::Node) -> Place;
    fn run_len(&self, node: Self::Node) -> usize;
    fn origin(&self, node: Self::Node) -> Option<Self::Node>;
    fn is_origin(&self, a: Self::Node, b: Self::Node) -> bool;
    fn rename(&mut self, node: Self::Node, place: Place);
    /// Puts a node directly behind its origin.
    fn insert_below(&mut self, origin: Self::Node, place: Place);
    fn outer_runs(&self, places: &[Place]) -> Vec<Self::Run>;
    fn cut(&mut self, runs: &[Self::Run]) -> Self::Cut;
    fn nodes_in(cut: &Self::Cut) -> usize;
    /// Puts back all that the last cut took.
    fn splice(&mut self, cut: Self::Cut);
    /// Lets go what was cut out.
    fn forget(&mut self, cut: Self::Cut);
    /// All nodes, each before what derives from it.
    fn in_order(&self) -> Vec<Self::Node>;
    fn links(&self) -> Vec<(Place, Option<Place>)>;
}

#[derive(Clone, Copy)]
enum Form {
    Chain,
    Fan,
    Random,
}

impl Form {
    fn name(self) -> &'static str {
        match self {
            Form::Chain => "chain",
            Form::Fan => "fan",
            Form::Random => "random",
        }
    }

    fn origin(self, n: u32) -> u32 {
        match self {
            Form::Chain => n - 1,
            Form::Fan => 0,
            Form::Random => n.wrapping_mul(2_654_435_761) / 8 % n,
        }
    }
}

fn nth_place(n: u32) -> Place {
    Place { space: (n % 512) as u16, page: n / 512 }
}

fn number_of(place: Place) -> usize {
    place.page as usize * 512 + place.space as usize
}

fn large_tree<T: Tree>(form: Form, count: u32) -> T {
    let mut tree = T::root(nth_place(0));
    for n in 1..count {
        let origin = tree.find(nth_place(form.origin(n))).unwrap();
        tree.insert_below(origin, nth_place(n));
    }
    tree
}

fn tell(call: &str, calls: u32, start: Instant, sum: usize) {
    println!("{call} {calls} {} {sum}", start.elapsed().as_nanos());
}

/// Makes a call so often, and tells the sum of what it answers.
fn times(call: &str, calls: u32, mut answer: impl FnMut(u32) -> usize) {
    let start = Instant::now();
    let sum = (0..calls).fold(0, |sum: usize, n| sum.wrapping_add(answer(n)));
    tell(call, calls, start, sum);
}

fn sum_of(links: &[(Place, Option<Place>)]) -> usize {
    let numbers = links.iter().flat_map(|(place, origin)| [Some(*place), *origin]).flatten().map(number_of);
    numbers.fold(0, |sum: usize, number| sum.wrapping_mul(31).wrapping_add(number))
}

fn works<T: Tree>(form: Form, count: u32) {
    println!("{} {count}", form.name());
    let start = Instant::now();
    let mut tree: T = large_tree(form, count);
    let root = tree.find(nth_place(0)).unwrap();
    tell("make", count, start, tree.run_len(root));

    let order = tree.in_order();
    let nth_node = |n: u32| order[(n as usize).wrapping_mul(7919) % order.len()];
    let nth_old = |n: u32| nth_place(n.wrapping_mul(7919) % count);
    let named: Vec<Place> = (1..count / 10).map(|n| nth_place(n * 10)).collect();
    times("find", CALLS, |n| tree.find(nth_old(n)).map_or(0, |node| number_of(tree.place(node))));
    times("run_of", CALLS, |n| tree.run_len(nth_node(n)));
    times("place_of_origin", CALLS, |n| tree.origin(nth_node(n)).map_or(0, |node| number_of(tree.place(node))));
    times("origin_of", CALLS, |n| tree.origin(nth_node(n)).map_or(0, |node| number_of(tree.place(node))));
    times("is_origin", CALLS, |n| usize::from(tree.is_origin(nth_node(n), nth_node(n.wrapping_mul(31)))));
    times("outer_runs", PASSES, |_| tree.outer_runs(&named).len());
    let runs = tree.outer_runs(&named);
    times("cut+splice", PASSES, |_| {
        let cut = tree.cut(&runs);
        let nodes = T::nodes_in(&cut);
        tree.splice(cut);
        nodes
    });

    let mut next = count;
    let renamed = next;
    times("find+rename", CALLS, |n| match tree.find(nth_old(n)) {
        Some(node) => {
            tree.rename(node, nth_place(next));
            next += 1;
            1
        }
        None => 0,
    });
    let inserted = next;
    times("find+insert_below", CALLS, |n| match tree.find(nth_place(renamed + n)) {
        Some(node) => {
            tree.insert_below(node, nth_place(next));
            next += 1;
            1
        }
        None => 0,
    });
    times("cut+splice_one", CALLS, |n| {
        let runs = tree.outer_runs(&[nth_place(inserted + n)]);
        let cut = tree.cut(&runs);
        let nodes = T::nodes_in(&cut);
        tree.splice(cut);
        nodes
    });
    times("cut_one", CALLS, |n| {
        let runs = tree.outer_runs(&[nth_place(inserted + n)]);
        let cut = tree.cut(&runs);
        let nodes = T::nodes_in(&cut);
        tree.forget(cut);
        nodes
    });
    times("links", 1, |_| sum_of(&tree.links()));
}

/// Makes each call on trees of every form, of as many nodes as the command line asks for.
pub fn run<T: Tree>() {
    let count = std::env::args().nth(1).map_or(1_000, |word| word.parse().unwrap());
    for form in [Form::Chain, Form::Fan, Form::Random] {
        works::<T>(form, count);
    }
}
