//! Uses of many versions, as in the proved program, and std's containers beside them, of which each version is a clone.

use crate::cases::{Cases, Subject};
use crate::containers::{HashMap, HashSet};
use crate::hashers::IdentityBuild;
use crate::keys::Keys;
use rpds::{List, Queue, RedBlackTreeMap, RedBlackTreeSet, Vector};
use std::collections::{self, BTreeMap, BTreeSet, VecDeque};

type OrderedMap = RedBlackTreeMap<u64, u64>;
type HashedMap = HashMap<IdentityBuild>;
type StdMap = collections::HashMap<u64, u64, IdentityBuild>;
type StdSet = collections::HashSet<u64, IdentityBuild>;

macro_rules! subject {
    ($container:ty, $put:expr) => {
        impl Subject for $container {
            fn empty() -> Self {
                Self::default()
            }

            fn put(&mut self, number: u64) {
                let put: fn(&mut Self, u64) = $put;
                put(self, number);
            }
        }
    };
}

subject!(Vec<u64>, |row, number| row.push(number));
subject!(VecDeque<u64>, |queue, number| queue.push_back(number));
subject!(BTreeMap<u64, u64>, |map, key| {
    map.insert(key, key);
});
subject!(BTreeSet<u64>, |set, key| {
    set.insert(key);
});
subject!(StdMap, |map, key| {
    map.insert(key, key);
});
subject!(StdSet, |set, key| {
    set.insert(key);
});

/// A map or a set, as a value of which there are versions.
trait Keyed: Subject {
    fn with(&self, key: u64) -> Self;
    fn without(&self, key: &u64) -> Self;
    fn find(&self, key: &u64) -> u64;
}

/// What a call in place leaves in a clone.
fn changed<S: Clone, R>(container: &S, change: impl FnOnce(&mut S) -> R) -> S {
    let mut changed = container.clone();
    change(&mut changed);
    changed
}

macro_rules! keyed {
    ($container:ty, $with:expr, $without:expr, $find:expr) => {
        impl Keyed for $container {
            fn with(&self, key: u64) -> Self {
                let with: fn(&Self, u64) -> Self = $with;
                with(self, key)
            }

            fn without(&self, key: &u64) -> Self {
                let without: fn(&Self, &u64) -> Self = $without;
                without(self, key)
            }

            fn find(&self, key: &u64) -> u64 {
                let find: fn(&Self, &u64) -> u64 = $find;
                find(self, key)
            }
        }
    };
}

macro_rules! keyed_by_versions {
    ($map:ty, $set:ty) => {
        keyed!(
            $map,
            |map, key| map.insert(key, key),
            |map, key| map.remove(key),
            |map, key| map.get(key).copied().unwrap_or(0)
        );
        keyed!(
            $set,
            |set, key| set.insert(key),
            |set, key| set.remove(key),
            |set, key| u64::from(set.contains(key))
        );
    };
}

macro_rules! keyed_by_clones {
    ($map:ty, $set:ty) => {
        keyed!(
            $map,
            |map, key| changed(map, |map| map.insert(key, key)),
            |map, key| changed(map, |map| map.remove(key)),
            |map, key| map.get(key).copied().unwrap_or(0)
        );
        keyed!(
            $set,
            |set, key| changed(set, |set| set.insert(key)),
            |set, key| changed(set, |set| set.remove(key)),
            |set, key| u64::from(set.contains(key))
        );
    };
}

keyed_by_versions!(OrderedMap, RedBlackTreeSet<u64>);
keyed_by_versions!(HashedMap, HashSet);
keyed_by_clones!(BTreeMap<u64, u64>, BTreeSet<u64>);
keyed_by_clones!(StdMap, StdSet);

/// Containers that are kept, so that the memory they take can be told from outside.
pub fn kept(cases: &Cases) {
    fn keep<S: Subject>(cases: &Cases, name: &str) {
        cases.call(name, &[], |subject: S, _| subject);
    }
    keep::<List<u64>>(cases, "List");
    keep::<Queue<u64>>(cases, "Queue");
    keep::<Vector<u64>>(cases, "Vector");
    keep::<OrderedMap>(cases, "RedBlackTreeMap");
    keep::<RedBlackTreeSet<u64>>(cases, "RedBlackTreeSet");
    keep::<HashedMap>(cases, "HashTrieMap");
    keep::<HashSet>(cases, "HashTrieSet");
    keep::<Vec<u64>>(cases, "Vec");
    keep::<VecDeque<u64>>(cases, "VecDeque");
    keep::<BTreeMap<u64, u64>>(cases, "BTreeMap");
    keep::<BTreeSet<u64>>(cases, "BTreeSet");
    keep::<StdMap>(cases, "HashMap");
    keep::<StdSet>(cases, "HashSet");
}

/// Puts a key in or takes one out as often as the map has keys, and keeps each version. Then looks a key up in each.
fn edited<S: Keyed>(map: S, keys: &Keys) -> (Vec<S>, u64) {
    let mut versions = Vec::with_capacity(keys.stored.len());
    let mut now = map;
    for (stored, absent) in keys.shuffled.iter().zip(&keys.absent) {
        let next = if *stored % 2 == 0 {
            now.with(*absent)
        } else {
            now.without(stored)
        };
        versions.push(now);
        now = next;
    }
    let found = versions.iter().zip(&keys.stored).map(|(version, key)| version.find(key));
    let sum = found.fold(now.find(&0), u64::wrapping_add);
    (versions, sum)
}

/// Writes to each position of the vector, and keeps each version.
fn written<S>(vector: S, keys: &Keys, set: impl Fn(&S, usize) -> Option<S>) -> Vec<S> {
    let mut versions = Vec::with_capacity(keys.stored.len());
    let mut now = vector;
    for position in &keys.shuffled_positions {
        if let Some(next) = set(&now, *position) {
            versions.push(now);
            now = next;
        }
    }
    versions
}

/// An undo store.
pub fn undo(cases: &Cases) {
    let keys = cases.keys;
    cases.call("RedBlackTreeMap", &[], |map: OrderedMap, _| edited(map, keys));
    cases.call("HashTrieMap", &[], |map: HashedMap, _| edited(map, keys));
    cases.call("Vector", &[], |vector: Vector<u64>, _| {
        written(vector, keys, |vector, position| vector.set(position, 7))
    });
    cases.call("BTreeMap", &[], |map: BTreeMap<u64, u64>, _| edited(map, keys));
    cases.call("HashMap", &[], |map: StdMap, _| edited(map, keys));
    cases.call("Vec", &[], |row: Vec<u64>, _| {
        written(row, keys, |row, position| Some(changed(row, |row| row[position] = 7)))
    });
}

/// Enters a scope of five names in the scope before it, up to eight of them, and then leaves all. In each it looks its own
/// names up, and five of the outermost.
fn entered<S: Keyed>(map: &S, keys: &Keys) -> u64 {
    let mut open: Vec<S> = Vec::new();
    let mut sum = 0u64;
    for (own, outer) in keys.absent.chunks(5).zip(keys.shuffled.chunks(5)) {
        let mut scope = open.last().unwrap_or(map).clone();
        for name in own {
            scope.put(*name);
        }
        for name in own.iter().chain(outer) {
            sum = sum.wrapping_add(scope.find(name));
        }
        if open.len() == 8 {
            open.clear();
        }
        open.push(scope);
    }
    sum
}

/// The scopes of an interpreter.
pub fn scopes(cases: &Cases) {
    let keys = cases.keys;
    cases.call("RedBlackTreeMap", &[], |map: OrderedMap, _| entered(&map, keys));
    cases.call("HashTrieMap", &[], |map: HashedMap, _| entered(&map, keys));
    cases.call("BTreeMap", &[], |map: BTreeMap<u64, u64>, _| entered(&map, keys));
    cases.call("HashMap", &[], |map: StdMap, _| entered(&map, keys));
}

/// Queens on the first rows of a board of eight, as what they attack.
struct Board<S> {
    columns: S,
    rising: S,
    falling: S,
}

impl<S: Keyed> Board<S> {
    /// Returns it with a queen in the next row, or `None` where it is attacked.
    fn with(&self, row: u64, column: u64) -> Option<Board<S>> {
        let (rising, falling) = (row + column, row + 8 - column);
        if self.columns.find(&column) > 0 || self.rising.find(&rising) > 0 || self.falling.find(&falling) > 0 {
            return None;
        }
        Some(Board {
            columns: self.columns.with(column),
            rising: self.rising.with(rising),
            falling: self.falling.with(falling),
        })
    }
}

/// Returns how many ways there are to place eight queens, none of which attacks another.
fn placed<S: Keyed>(empty: &S) -> usize {
    let mut boards = vec![Board {
        columns: empty.clone(),
        rising: empty.clone(),
        falling: empty.clone(),
    }];
    for row in 0..8 {
        let mut longer = Vec::new();
        for board in &boards {
            longer.extend((0..8).filter_map(|column| board.with(row, column)));
        }
        boards = longer;
    }
    boards.len()
}

/// A search.
pub fn queens(cases: &Cases) {
    cases.call("RedBlackTreeSet", &[], |_: RedBlackTreeSet<u64>, empty| placed(empty));
    cases.call("HashTrieSet", &[], |_: HashSet, empty| placed(empty));
    cases.call("BTreeSet", &[], |_: BTreeSet<u64>, empty| placed(empty));
    cases.call("HashSet", &[], |_: StdSet, empty| placed(empty));
}
