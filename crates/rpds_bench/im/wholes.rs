//! Two containers in one. im-rc's calls take both, so they are handed clones.

use crate::cases::Cases;
use crate::containers::{HashSet, Map};
use crate::keys::Keys;

pub fn ordered_maps(cases: &Cases) {
    let keys = cases.keys;
    cases.whole("union absent", &keys.absent, |map: &mut Map, other| map.clone().union(other.clone()));
    cases.whole("intersection stored", &keys.shuffled, |map: &mut Map, other| {
        map.clone().intersection(other.clone())
    });
    cases.whole("difference absent", &keys.absent, |map: &mut Map, other| {
        map.clone().relative_complement(other.clone())
    });
    cases.whole("diff stored", &keys.shuffled, |map: &mut Map, other| map.diff(other).count());
}

/// A map, and one that lacks a hundred of its keys.
pub fn few_differences(cases: &Cases) {
    let sides = |keys: &Keys| {
        let base: Map = keys.stored.iter().map(|key| (*key, *key)).collect();
        let mut ours = base.clone();
        for key in keys.shuffled.iter().take(100) {
            ours.remove(key);
        }
        (base, ours)
    };
    cases.once("diff of 100", sides, |(base, ours): &(Map, Map)| base.diff(ours).count());
}

pub fn hashed_sets(cases: &Cases) {
    let keys = cases.keys;
    let few = &keys.shuffled[..keys.shuffled.len().min(100)];
    cases.whole("union absent", &keys.absent, |set: &mut HashSet, other| set.clone().union(other.clone()));
    cases.whole("intersection stored", &keys.shuffled, |set: &mut HashSet, other| {
        set.clone().intersection(other.clone())
    });
    cases.whole("intersection absent", &keys.absent, |set: &mut HashSet, other| {
        set.clone().intersection(other.clone())
    });
    cases.whole("difference absent", &keys.absent, |set: &mut HashSet, other| {
        set.clone().relative_complement(other.clone())
    });
    cases.whole("intersection few", few, |set: &mut HashSet, other| {
        set.clone().intersection(other.clone())
    });
    cases.whole("difference few", few, |set: &mut HashSet, other| {
        set.clone().relative_complement(other.clone())
    });
    cases.whole("symmetric_difference few", few, |set: &mut HashSet, other| {
        set.clone().symmetric_difference(other.clone())
    });
}
