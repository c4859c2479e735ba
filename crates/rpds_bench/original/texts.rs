//! Maps of texts to numbers: a key that is sought by a `&str`, and by a reference to a key. The hashed one has the default hasher.

use crate::cases::{Cases, Start, Subject};

/// A function of this name, with the cases of a map, whose keys are the numbers in decimal digits.
macro_rules! texts {
    ($name:ident, $Map:ident) => {
        pub fn $name(cases: &Cases) {
            type Texts = rpds::$Map<String, u64>;

            impl Subject for Texts {
                fn empty() -> Self {
                    rpds::$Map::new()
                }

                fn put(&mut self, number: u64) {
                    self.insert_mut(number.to_string(), number);
                }
            }

            if !cases.asks_for(" by ") {
                return;
            }
            let keys: Vec<String> = cases.keys.shuffled.iter().map(u64::to_string).collect();
            let lent: Vec<&String> = keys.iter().collect();
            cases.looks("get by str", &keys, |map: &Texts, key| {
                map.get(key.as_str()).copied().unwrap_or(0)
            });
            cases.looks("get by String", &keys, |map: &Texts, key| map.get(key).copied().unwrap_or(0));
            cases.versions("remove by str", Start::Shared, &lent, |map: &Texts, key| {
                Some(map.remove(key.as_str()))
            });
            cases.versions("remove by String", Start::Shared, &lent, |map: &Texts, key| {
                Some(map.remove(key))
            });
        }
    };
}

texts!(red_black_tree_map, RedBlackTreeMap);
texts!(hash_trie_map, HashTrieMap);
