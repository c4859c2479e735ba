//! Runs the cases of `rpds_bench` on the Rust crate `rpds`, on the same keys in the same order, so that `./bench --original`
//! can count what they cost there.
//!
//! `rpds_bench N` runs each case on N keys, `rpds_bench N List::push_front` the one of that name. It prints how many calls each
//! made, and its name. `rpds_bench N List::push_front 9` runs that one in nine rounds, and prints the nanoseconds of each.

// `once` is there for the cases on im-rc.
#[allow(dead_code)]
mod cases;
mod containers;
mod hashers;
mod keys;
#[allow(dead_code)]
mod measured;
mod texts;
mod uses;

use cases::Cases;
use keys::Keys;

fn main() {
    let mut words = std::env::args().skip(1);
    let count = words.next().and_then(|word| word.parse().ok()).unwrap_or(0);
    let asked = words.next();
    let rounds = words.next().and_then(|word| word.parse().ok());
    let keys = Keys::new(count);
    let few = Keys::new(count.min(1000));
    let cases = |container, keys| Cases {
        asked: asked.as_deref().and_then(|asked| asked.split_once("::")),
        rounds,
        keys,
        container,
    };
    containers::list(&cases("List", &keys));
    containers::stack(&cases("Stack", &keys));
    containers::queue(&cases("Queue", &keys));
    containers::vector(&cases("Vector", &keys));
    containers::red_black_tree_map(&cases("RedBlackTreeMap", &keys));
    texts::red_black_tree_map(&cases("RedBlackTreeMap", &keys));
    containers::red_black_tree_set(&cases("RedBlackTreeSet", &keys));
    containers::hash_trie_map(&cases("HashTrieMap", &keys));
    texts::hash_trie_map(&cases("HashTrieMap", &keys));
    containers::colliding(&cases("HashTrieMap", &few));
    containers::hash_trie_set(&cases("HashTrieSet", &keys));
    uses::kept(&cases("kept", &keys));
    uses::undo(&cases("undo", &keys));
    uses::scopes(&cases("scopes", &keys));
    uses::queens(&cases("queens", &keys));
}
