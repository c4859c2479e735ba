//! The cases of each container: the calls that the proved program makes, under its names.

use crate::cases::{Cases, Start, Subject};
use crate::hashers::IdentityBuild;
use im_rc::{OrdMap, OrdSet, Vector};
use std::hint::black_box;

pub type Numbers = Vector<u64>;
pub type Map = OrdMap<u64, u64>;
pub type Set = OrdSet<u64>;
pub type HashMap = im_rc::HashMap<u64, u64, IdentityBuild>;
pub type HashSet = im_rc::HashSet<u64, IdentityBuild>;

macro_rules! subject {
    ($container:ty, $subject:ident, $number:ident, $put:expr) => {
        impl Subject for $container {
            fn empty() -> Self {
                <$container>::default()
            }

            fn put(&mut self, $number: u64) {
                let $subject = self;
                $put;
            }
        }
    };
}

subject!(Numbers, vector, number, vector.push_back(number));
subject!(Map, map, key, map.insert(key, key));
subject!(Set, set, key, set.insert(key));
subject!(HashMap, map, key, map.insert(key, key));
subject!(HashSet, set, key, set.insert(key));

fn sum<'a>(items: impl Iterator<Item = &'a u64>) -> u64 {
    items.fold(0, |sum, item| sum.wrapping_add(*item))
}

fn sum_of_pairs<'a>(pairs: impl Iterator<Item = (&'a u64, &'a u64)>) -> u64 {
    pairs.fold(0, |sum, (key, value)| sum.wrapping_add(key ^ value))
}

/// Two halves of a vector.
#[derive(Clone)]
struct Halves {
    first: Numbers,
    second: Numbers,
}

impl Subject for Halves {
    fn empty() -> Self {
        Halves { first: Numbers::new(), second: Numbers::new() }
    }

    fn put(&mut self, number: u64) {
        self.second.put(number);
    }

    fn of_numbers(numbers: &[u64]) -> Self {
        let (first, second) = Numbers::of_numbers(numbers).split_at(numbers.len() / 2);
        Halves { first, second }
    }
}

/// The version that a change of a clone makes.
fn changed<S: Clone>(subject: &S, change: impl FnOnce(&mut S)) -> Option<S> {
    let mut version = subject.clone();
    change(&mut version);
    Some(version)
}

/// Adds to the item at a position, or writes it.
fn write(vector: &mut Numbers, position: usize, change: impl FnOnce(&mut u64)) {
    if let Some(item) = vector.get_mut(position) {
        change(item);
    }
}

/// The cases that vectors and sequences have.
fn ends(cases: &Cases, pop: &str, pop_mut: &str) {
    let (keys, positions) = (cases.keys, &cases.keys.shuffled_positions);
    cases.versions("push_back", Start::Empty, &keys.stored, |it: &Numbers, item| {
        changed(it, |it| it.push_back(item))
    });
    cases.changes("push_back_mut", Start::Empty, &keys.stored, |it: &mut Numbers, item| it.put(item));
    cases.versions(pop, Start::Shared, &keys.stored, |it: &Numbers, _| {
        changed(it, |it| {
            it.pop_back();
        })
    });
    cases.changes(pop_mut, Start::Own, &keys.stored, |it: &mut Numbers, _| {
        it.pop_back();
    });
    cases.changes("clone", Start::Own, &keys.stored, |it: &mut Numbers, _| drop(black_box(it.clone())));
    cases.call("drop", &[], |it: Numbers, _| drop(it));
    cases.whole("iter", &[], |it: &mut Numbers, _| sum(it.iter()));
    cases.whole("eq", &keys.stored, |it: &mut Numbers, other| *it == *other);
    cases.whole("cmp", &keys.stored, |it: &mut Numbers, other| (*it).cmp(other));
    cases.looks("get", positions, |it: &Numbers, position| it.get(*position).copied().unwrap_or(0));
    cases.versions("set", Start::Shared, positions, |it: &Numbers, position| {
        Some(it.update(position, 7))
    });
}

/// Changes in the middle, cuts, and halves put together: each call is on all stored numbers, or on the halves of these, and what
/// it hands out is dropped. A cut is called so.
fn edits(cases: &Cases, positions: &[usize], cut: &str) {
    let len = |made: Option<Numbers>| made.map_or(0, |made| made.len() as u64);
    cases.looks("insert", positions, |it: &Numbers, position| {
        len(changed(it, |it| it.insert(*position, 7)))
    });
    cases.looks("remove", positions, |it: &Numbers, position| {
        len(changed(it, |it| {
            it.remove(*position);
        }))
    });
    cases.looks(cut, positions, |it: &Numbers, position| {
        it.clone().split_at(*position).0.len() as u64
    });
    cases.looks("append", positions, |halves: &Halves, _| {
        len(changed(&halves.first, |all| all.append(halves.second.clone())))
    });
}

pub fn vector(cases: &Cases) {
    let (keys, positions) = (cases.keys, &cases.keys.shuffled_positions);
    ends(cases, "drop_last", "drop_last_mut");
    cases.changes("set_mut", Start::Own, positions, |it: &mut Numbers, position| {
        it.set(position, 7);
    });
    cases.changes("item_mut", Start::Own, positions, |it: &mut Numbers, position| {
        write(it, position, |item| *item = 7)
    });
    cases.changes("item_mut shared", Start::Shared, positions, |it: &mut Numbers, position| {
        write(it, position, |item| *item = 7)
    });
    cases.call("extend", &[], |_: Numbers, _| keys.stored.iter().copied().collect::<Numbers>());
    edits(cases, &positions[..positions.len().min(100)], "take and skip");
}

pub fn sequence(cases: &Cases) {
    let (keys, positions) = (cases.keys, &cases.keys.shuffled_positions);
    ends(cases, "pop_back", "remove_mut last");
    cases.changes("update_mut", Start::Own, positions, |it: &mut Numbers, position| {
        write(it, position, |item| *item = item.wrapping_add(1))
    });
    cases.changes("insert_mut", Start::Own, positions, |it: &mut Numbers, position| {
        it.insert(position, 7)
    });
    cases.changes("remove_mut", Start::Own, positions, |it: &mut Numbers, position| {
        it.remove(position % it.len());
    });
    cases.changes("push_back_mut behind all", Start::Own, positions, |it: &mut Numbers, _| it.put(7));
    edits(cases, positions, "split_at");
    cases.looks("binary_search", positions, |it: &Numbers, position| {
        match it.binary_search(&(*position as u64)) {
            Ok(index) | Err(index) => index as u64,
        }
    });
    cases.call("from_iter", &[], |_: Numbers, _| keys.stored.iter().copied().collect::<Numbers>());
    cases.whole("retain half", &[], |it: &mut Numbers, _| it.retain(|item| *item % 2 == 0));
    cases.call("map", &[], |it: Numbers, _| it.iter().copied().collect::<Numbers>());
}

/// The cases that all maps and sets have: an insertion of a key, a look-up, and the sum of all.
macro_rules! keyed {
    ($cases:expr, $container:ty, $look_up:literal, $insert:expr, $find:expr, $sum:expr) => {
        let keys = $cases.keys;
        $cases.looks($look_up, &keys.shuffled, $find);
        $cases.looks(concat!($look_up, " absent"), &keys.absent, $find);
        $cases.versions("insert", Start::Empty, &keys.stored, $insert);
        $cases.changes("insert_mut", Start::Empty, &keys.stored, |it: &mut $container, key| it.put(key));
        $cases.changes("insert_mut stored", Start::Own, &keys.shuffled, |it: &mut $container, key| {
            it.put(key)
        });
        $cases.versions("remove", Start::Shared, &keys.shuffled, |it: &$container, key| {
            Some(it.without(&key))
        });
        $cases.changes("remove_mut", Start::Own, &keys.shuffled, |it: &mut $container, key| {
            it.remove(&key);
        });
        $cases.changes("remove_mut absent", Start::Own, &keys.absent, |it: &mut $container, key| {
            it.remove(&key);
        });
        $cases.changes("clone", Start::Own, &keys.stored, |it: &mut $container, _| {
            drop(black_box(it.clone()))
        });
        $cases.call("drop", &[], |it: $container, _| drop(it));
        $cases.whole("iter", &[], |it: &mut $container, _| $sum(it));
        $cases.whole("eq", &keys.shuffled, |it: &mut $container, other| *it == *other);
        $cases.whole("eq clone", &[], |it: &mut $container, _| *it == it.clone());
    };
}

macro_rules! map {
    ($cases:expr, $container:ty) => {
        keyed!(
            $cases,
            $container,
            "get",
            |map: &$container, key| Some(map.update(key, key)),
            |map: &$container, key: &u64| map.get(key).copied().unwrap_or(0),
            |map: &$container| sum_of_pairs(map.iter())
        );
        let write = |map: &mut $container, key| {
            if let Some(value) = map.get_mut(&key) {
                *value = 7;
            }
        };
        $cases.changes("value_mut", Start::Own, &$cases.keys.shuffled, write);
        $cases.changes("value_mut shared", Start::Shared, &$cases.keys.shuffled, write);
    };
}

macro_rules! set {
    ($cases:expr, $container:ty) => {
        keyed!(
            $cases,
            $container,
            "contains",
            |set: &$container, key| Some(set.update(key)),
            |set: &$container, key: &u64| u64::from(set.contains(key)),
            |set: &$container| sum(set.iter())
        );
        $cases.whole("is_subset", &$cases.keys.shuffled, |set: &mut $container, other| {
            set.is_subset(other)
        });
    };
}

pub fn ordered_map(cases: &Cases) {
    let keys = cases.keys;
    map!(cases, Map);
    cases.versions("insert ascending", Start::Empty, &keys.positions, |map: &Map, position| {
        Some(map.update(position as u64, position as u64))
    });
    cases.changes("insert_mut ascending", Start::Empty, &keys.positions, |map: &mut Map, position| {
        map.put(position as u64)
    });
    cases.looks("range first", &keys.shuffled, |map: &Map, key| {
        map.range(*key..=*key).next().map_or(0, |(_, value)| *value)
    });
    cases.looks("range of 100", &keys.shuffled, |map: &Map, key| {
        let apart = u64::MAX / (map.len() as u64).max(1);
        sum_of_pairs(map.range(*key..=key.saturating_add(apart.saturating_mul(100))))
    });
    cases.looks("floor absent", &keys.absent, |map: &Map, key| {
        map.get_prev(key).map_or(0, |(_, value)| *value)
    });
}

pub fn ordered_set(cases: &Cases) {
    set!(cases, Set);
}

pub fn hashed_map(cases: &Cases) {
    map!(cases, HashMap);
}

pub fn hashed_set(cases: &Cases) {
    set!(cases, HashSet);
}
