//! The cases of one container: those that are asked for are run.

use crate::keys::Keys;
use crate::measured;
use std::hint::black_box;
use std::time::Instant;

/// How many calls a round makes at least, so that the clock's own time doesn't count.
const CALLS: usize = 10_000;

/// A container of numbers.
pub trait Subject: Clone {
    fn empty() -> Self;
    fn put(&mut self, number: u64);

    /// The container of these numbers, put in in their order.
    fn of_numbers(numbers: &[u64]) -> Self {
        let mut subject = Self::empty();
        for number in numbers {
            subject.put(*number);
        }
        subject
    }
}

/// What a case begins with.
#[derive(Clone, Copy)]
pub enum Start {
    /// An empty container.
    Empty,
    /// One of all stored keys, which shares nothing.
    Own,
    /// The same, all of which another version shares.
    Shared,
}

pub struct Cases<'a> {
    /// The container and the call of the one case that is asked for, or `None` for all.
    pub asked: Option<(&'a str, &'a str)>,
    /// How many rounds a case is timed in, or `None` where it is run once.
    pub rounds: Option<usize>,
    pub keys: &'a Keys,
    pub container: &'a str,
}

impl Cases<'_> {
    /// Whether a case is asked for that has these words in its name, so that what it needs has to be made.
    pub fn asks_for(&self, words: &str) -> bool {
        self.asked.is_none_or(|(_, call)| call.contains(words))
    }

    fn is_asked(&self, case: &str) -> bool {
        self.asked.is_none_or(|asked| asked == (self.container, case))
    }

    /// Prints a case that was run once, or the nanoseconds of its round.
    fn tell(&self, case: &str, count: usize, since: Instant) {
        let told = self.rounds.map_or(count as u128, |_| since.elapsed().as_nanos());
        println!("{told} {}::{case}", self.container);
    }

    fn rounds(&self) -> usize {
        self.rounds.unwrap_or(1)
    }

    /// Returns how often a round repeats the case, each time on a container of its own.
    fn repeats(&self) -> usize {
        self.rounds.map_or(1, |_| (CALLS / self.keys.stored.len().max(1)).max(1))
    }

    /// Returns what a case begins with, and what shares it.
    fn start<S: Subject>(&self, start: Start) -> (S, S) {
        match start {
            Start::Empty => (S::empty(), S::empty()),
            Start::Own => (S::of_numbers(&self.keys.stored), S::empty()),
            Start::Shared => {
                let kept = S::of_numbers(&self.keys.stored);
                (kept.clone(), kept)
            }
        }
    }

    /// Returns what the repeats of a round begin with.
    fn starts<S: Subject>(&self, start: Start) -> Vec<(S, S)> {
        (0..self.repeats()).map(|_| self.start(start)).collect()
    }

    /// One change in place with each of these keys.
    pub fn changes<S: Subject, K: Copy>(&self, case: &str, start: Start, keys: &[K], change: impl Fn(&mut S, K)) {
        if self.is_asked(case) {
            for _ in 0..self.rounds() {
                let mut starts = self.starts::<S>(start);
                let since = Instant::now();
                for (subject, _) in &mut starts {
                    measured::changes(subject, keys, &change);
                }
                self.tell(case, keys.len(), since);
                drop(black_box(starts));
            }
        }
    }

    /// One version with each of these keys.
    pub fn versions<S: Subject, K: Copy>(
        &self,
        case: &str,
        start: Start,
        keys: &[K],
        change: impl Fn(&S, K) -> Option<S>,
    ) {
        if self.is_asked(case) {
            for _ in 0..self.rounds() {
                let mut starts = self.starts::<S>(start);
                let since = Instant::now();
                for (subject, _) in &mut starts {
                    measured::versions(subject, keys, &change);
                }
                self.tell(case, keys.len(), since);
                drop(black_box(starts));
            }
        }
    }

    /// One look-up of each of these keys in a container of all stored ones.
    pub fn looks<S: Subject, K>(&self, case: &str, keys: &[K], look: impl Fn(&S, &K) -> u64) {
        if self.is_asked(case) {
            for _ in 0..self.rounds() {
                let starts = self.starts::<S>(Start::Own);
                let mut sums = Vec::with_capacity(starts.len());
                let since = Instant::now();
                for (subject, _) in &starts {
                    sums.push(measured::looks(subject, keys, &look));
                }
                self.tell(case, keys.len(), since);
                drop(black_box(sums));
            }
        }
    }

    /// One call on a container of all stored keys, which stays, and on another that was made of these.
    pub fn whole<S: Subject, R>(&self, case: &str, others: &[u64], call: impl Fn(&mut S, &S) -> R) {
        if self.is_asked(case) {
            let other = S::of_numbers(others);
            for _ in 0..self.rounds() {
                let mut starts = self.starts::<S>(Start::Own);
                let mut ends = Vec::with_capacity(starts.len());
                let since = Instant::now();
                for (subject, _) in &mut starts {
                    ends.push(measured::whole(subject, &other, &call));
                }
                self.tell(case, self.keys.stored.len(), since);
                drop(black_box(ends));
            }
        }
    }

    /// One call that takes a container of all stored keys, and another that was made of these by reference.
    pub fn call<S: Subject, R>(&self, case: &str, others: &[u64], call: impl Fn(S, &S) -> R) {
        if self.is_asked(case) {
            let other = S::of_numbers(others);
            for _ in 0..self.rounds() {
                let starts = self.starts::<S>(Start::Own);
                let mut ends = Vec::with_capacity(starts.len());
                let since = Instant::now();
                for (subject, _) in starts {
                    ends.push(measured::call(subject, &other, &call));
                }
                self.tell(case, self.keys.stored.len(), since);
                drop(black_box(ends));
            }
        }
    }

    /// One call on what is made of the keys.
    pub fn once<S, R>(&self, case: &str, make: impl Fn(&Keys) -> S, call: impl Fn(&S) -> R) {
        if self.is_asked(case) {
            let subject = make(self.keys);
            for _ in 0..self.rounds() {
                let since = Instant::now();
                let end = measured::once(&subject, &call);
                self.tell(case, 1, since);
                drop(black_box(end));
            }
        }
    }
}
