//! Runs the cases of `rpds_bench` on the containers of `im-rc`, on the same keys in the same order, so that `./bench --im` can count
//! what they cost there. A version is a clone that is changed.
//!
//! `im_bench N` runs each case on N keys, `im_bench N Vector::get` the one of that name.

// The Rust crate's program has some of these in use, and this one others.
#![allow(dead_code)]

#[path = "../original/cases.rs"]
mod cases;
mod containers;
#[path = "../original/hashers.rs"]
mod hashers;
#[path = "../original/keys.rs"]
mod keys;
#[path = "../original/measured.rs"]
mod measured;
mod wholes;

use cases::Cases;
use keys::Keys;

fn main() {
    let mut words = std::env::args().skip(1);
    let count = words.next().and_then(|word| word.parse().ok()).unwrap_or(0);
    let asked = words.next();
    let rounds = words.next().and_then(|word| word.parse().ok());
    let keys = Keys::new(count);
    let cases = |container| Cases {
        asked: asked.as_deref().and_then(|asked| asked.split_once("::")),
        rounds,
        keys: &keys,
        container,
    };
    containers::vector(&cases("Vector"));
    containers::sequence(&cases("Sequence"));
    containers::ordered_map(&cases("RedBlackTreeMap"));
    wholes::ordered_maps(&cases("RedBlackTreeMap"));
    wholes::few_differences(&cases("RedBlackTreeMap"));
    containers::ordered_set(&cases("RedBlackTreeSet"));
    containers::hashed_map(&cases("HashTrieMap"));
    containers::hashed_set(&cases("HashTrieSet"));
    wholes::hashed_sets(&cases("HashTrieSet"));
}
