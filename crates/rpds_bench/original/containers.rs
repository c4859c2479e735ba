//! The cases of each container: the calls that the proved program makes, under the same names.

use crate::cases::{Cases, Start, Subject};
use crate::hashers::{IdentityBuild, OneHashBuild};
use rpds::{HashTrieMap, HashTrieSet, List, Queue, RedBlackTreeMap, RedBlackTreeSet, Stack, Vector};
use std::hint::black_box;
use std::ops::Bound;

pub type HashMap<H> = HashTrieMap<u64, u64, archery::RcK, H>;
pub type HashSet = HashTrieSet<u64, archery::RcK, IdentityBuild>;

macro_rules! subject {
    ($container:ty, $empty:expr, $subject:ident, $number:ident, $put:expr) => {
        impl Subject for $container {
            fn empty() -> Self {
                $empty
            }

            fn put(&mut self, $number: u64) {
                let $subject = self;
                $put
            }
        }
    };
}

subject!(List<u64>, List::new(), list, number, list.push_front_mut(number));
subject!(Stack<u64>, Stack::new(), stack, number, stack.push_mut(number));
subject!(Queue<u64>, Queue::new(), queue, number, queue.enqueue_mut(number));
subject!(Vector<u64>, Vector::new(), vector, number, vector.push_back_mut(number));
subject!(RedBlackTreeMap<u64, u64>, RedBlackTreeMap::new(), map, key, map.insert_mut(key, key));
subject!(
    RedBlackTreeSet<u64>,
    RedBlackTreeSet::new(),
    set,
    key,
    set.insert_mut(key)
);
subject!(
    HashMap<IdentityBuild>,
    HashTrieMap::new_with_hasher_and_ptr_kind(IdentityBuild),
    map,
    key,
    map.insert_mut(key, key)
);
subject!(
    HashMap<OneHashBuild>,
    HashTrieMap::new_with_hasher_and_ptr_kind(OneHashBuild),
    map,
    key,
    map.insert_mut(key, key)
);
subject!(
    HashSet,
    HashTrieSet::new_with_hasher_with_ptr_kind(IdentityBuild),
    set,
    key,
    set.insert_mut(key)
);

fn sum<'a>(items: impl Iterator<Item = &'a u64>) -> u64 {
    items.fold(0, |sum, item| sum.wrapping_add(*item))
}

fn sum_of_pairs<'a>(pairs: impl Iterator<Item = (&'a u64, &'a u64)>) -> u64 {
    pairs.fold(0, |sum, (key, value)| sum.wrapping_add(key ^ value))
}

/// The cases that all sequences have: their two ends are the calls that are named.
macro_rules! sequence {
    ($cases:expr, $container:ty, $push:ident, $push_mut:ident, $pop:ident, $pop_mut:ident) => {
        let stored = &$cases.keys.stored;
        $cases.versions(stringify!($push), Start::Empty, stored, |it: &$container, item| {
            Some(it.$push(item))
        });
        $cases.changes(
            stringify!($push_mut),
            Start::Empty,
            stored,
            |it: &mut $container, item| it.put(item),
        );
        $cases.versions(stringify!($pop), Start::Shared, stored, |it: &$container, _| it.$pop());
        $cases.changes(stringify!($pop_mut), Start::Own, stored, |it: &mut $container, _| {
            it.$pop_mut();
        });
        $cases.changes("clone", Start::Own, stored, |it: &mut $container, _| drop(black_box(it.clone())));
        $cases.call("drop", &[], |it: $container, _| drop(it));
        $cases.whole("iter", &[], |it: &mut $container, _| sum(it.iter()));
        $cases.whole("eq", stored, |it: &mut $container, other| *it == *other);
        $cases.whole("cmp", stored, |it: &mut $container, other| (*it).cmp(other));
    };
}

pub fn list(cases: &Cases) {
    sequence!(cases, List<u64>, push_front, push_front_mut, drop_first, drop_first_mut);
    cases.whole("reverse", &[], |list: &mut List<u64>, _| list.reverse());
    cases.whole("reverse_mut", &[], |list: &mut List<u64>, _| {
        list.reverse_mut();
    });
}

pub fn stack(cases: &Cases) {
    sequence!(cases, Stack<u64>, push, push_mut, pop, pop_mut);
}

pub fn queue(cases: &Cases) {
    sequence!(cases, Queue<u64>, enqueue, enqueue_mut, dequeue, dequeue_mut);
    // Two go in for each one that comes out.
    cases.changes(
        "mixed_mut",
        Start::Empty,
        &cases.keys.positions,
        |queue: &mut Queue<u64>, position| {
            queue.put(position as u64);
            if position % 2 == 1 {
                queue.dequeue_mut();
            }
        },
    );
}

fn write(vector: &mut Vector<u64>, position: usize) {
    if let Some(item) = vector.get_mut(position) {
        *item = 7;
    }
}

pub fn vector(cases: &Cases) {
    type Numbers = Vector<u64>;
    let (keys, positions) = (cases.keys, &cases.keys.shuffled_positions);
    sequence!(cases, Numbers, push_back, push_back_mut, drop_last, drop_last_mut);
    cases.looks("get", positions, |vector: &Numbers, position| {
        vector.get(*position).copied().unwrap_or(0)
    });
    cases.versions("set", Start::Shared, positions, |vector: &Numbers, position| {
        vector.set(position, 7)
    });
    cases.changes("set_mut", Start::Own, positions, |vector: &mut Numbers, position| {
        vector.set_mut(position, 7);
    });
    cases.changes("item_mut", Start::Own, positions, write);
    cases.changes("item_mut shared", Start::Shared, positions, write);
    cases.call("extend", &[], |_: Numbers, _| {
        keys.stored.iter().copied().collect::<Numbers>()
    });
}

/// The cases that all maps and sets have: an insertion of a key, a look-up, and the sum of all.
macro_rules! keyed {
    ($cases:expr, $container:ty, $look_up:literal, $insert:expr, $find:expr, $sum:expr) => {
        let keys = $cases.keys;
        $cases.looks($look_up, &keys.shuffled, $find);
        $cases.looks(concat!($look_up, " absent"), &keys.absent, $find);
        $cases.versions("insert", Start::Empty, &keys.stored, $insert);
        $cases.changes("insert_mut", Start::Empty, &keys.stored, |it: &mut $container, key| {
            it.put(key)
        });
        $cases.changes(
            "insert_mut stored",
            Start::Own,
            &keys.shuffled,
            |it: &mut $container, key| it.put(key),
        );
        $cases.versions("remove", Start::Shared, &keys.shuffled, |it: &$container, key| {
            Some(it.remove(&key))
        });
        $cases.changes("remove_mut", Start::Own, &keys.shuffled, |it: &mut $container, key| {
            it.remove_mut(&key);
        });
        $cases.changes(
            "remove_mut absent",
            Start::Own,
            &keys.absent,
            |it: &mut $container, key| {
                it.remove_mut(&key);
            },
        );
        $cases.changes("clone", Start::Own, &keys.stored, |it: &mut $container, _| {
            drop(black_box(it.clone()))
        });
        $cases.call("drop", &[], |it: $container, _| drop(it));
        $cases.whole("iter", &[], |it: &mut $container, _| $sum(it));
        $cases.whole("eq", &keys.shuffled, |it: &mut $container, other| *it == *other);
        $cases.whole("eq clone", &[], |it: &mut $container, _| *it == it.clone());
    };
}

macro_rules! map {
    ($cases:expr, $container:ty) => {
        keyed!(
            $cases,
            $container,
            "get",
            |map: &$container, key| Some(map.insert(key, key)),
            |map: &$container, key: &u64| map.get(key).copied().unwrap_or(0),
            |map: &$container| sum_of_pairs(map.iter())
        );
        let write = |map: &mut $container, key| {
            if let Some(value) = map.get_mut(&key) {
                *value = 7;
            }
        };
        $cases.changes("value_mut", Start::Own, &$cases.keys.shuffled, write);
        $cases.changes("value_mut shared", Start::Shared, &$cases.keys.shuffled, write);
    };
}

macro_rules! set {
    ($cases:expr, $container:ty) => {
        keyed!(
            $cases,
            $container,
            "contains",
            |set: &$container, key| Some(set.insert(key)),
            |set: &$container, key: &u64| u64::from(set.contains(key)),
            |set: &$container| sum(set.iter())
        );
        let keys = $cases.keys;
        $cases.whole("is_subset", &keys.shuffled, |set: &mut $container, other| {
            set.is_subset(other)
        });
        $cases.whole("is_disjoint", &keys.absent, |set: &mut $container, other| {
            set.is_disjoint(other)
        });
    };
}

pub fn red_black_tree_map(cases: &Cases) {
    type Map = RedBlackTreeMap<u64, u64>;
    let keys = cases.keys;
    map!(cases, Map);
    // Of a clone for each key, so that each call meets a root that is shared.
    cases.versions(
        "remove_mut absent shared",
        Start::Own,
        &keys.absent,
        |map: &Map, key| {
            map.clone().remove_mut(&key);
            None
        },
    );
    cases.versions(
        "insert ascending",
        Start::Empty,
        &keys.positions,
        |map: &Map, position| Some(map.insert(position as u64, position as u64)),
    );
    cases.changes(
        "insert_mut ascending",
        Start::Empty,
        &keys.positions,
        |map: &mut Map, position| map.put(position as u64),
    );
    cases.looks("range first", &keys.shuffled, |map: &Map, key| {
        map.range((Bound::Included(key), Bound::Included(key)))
            .next()
            .map_or(0, |(_, value)| *value)
    });
    // The sum of some 100 pairs from the key on: keys that look random lie evenly.
    cases.looks("range of 100", &keys.shuffled, |map: &Map, key| {
        let apart = u64::MAX / (map.size() as u64).max(1);
        let last = key.saturating_add(apart.saturating_mul(100));
        sum_of_pairs(map.range((Bound::Included(key), Bound::Included(&last))))
    });
}

pub fn red_black_tree_set(cases: &Cases) {
    set!(cases, RedBlackTreeSet<u64>);
}

pub fn hash_trie_map(cases: &Cases) {
    map!(cases, HashMap<IdentityBuild>);
}

/// A hashed map whose keys all have one hash. Each case takes a step for each of them.
pub fn colliding(cases: &Cases) {
    type Colliding = HashMap<OneHashBuild>;
    cases.looks("get colliding", &cases.keys.shuffled, |map: &Colliding, key| {
        map.get(key).copied().unwrap_or(0)
    });
    cases.changes(
        "insert_mut colliding",
        Start::Empty,
        &cases.keys.stored,
        |map: &mut Colliding, key| map.put(key),
    );
}

pub fn hash_trie_set(cases: &Cases) {
    set!(cases, HashSet);
}
