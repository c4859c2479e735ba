//! The functions whose instructions are counted, with those of all that they call.

#[inline(never)]
pub fn changes<S, K: Copy>(subject: &mut S, keys: &[K], change: &impl Fn(&mut S, K)) {
    for key in keys {
        change(subject, *key);
    }
}

/// Makes a version with each key in turn, each of the one before it. Where none is made, that one stays.
#[inline(never)]
pub fn versions<S, K: Copy>(subject: &mut S, keys: &[K], change: &impl Fn(&S, K) -> Option<S>) {
    for key in keys {
        if let Some(version) = change(subject, *key) {
            *subject = version;
        }
    }
}

#[inline(never)]
pub fn looks<S, K>(subject: &S, keys: &[K], look: &impl Fn(&S, &K) -> u64) -> u64 {
    let mut sum = 0u64;
    for key in keys {
        sum = sum.wrapping_add(look(subject, key));
    }
    sum
}

#[inline(never)]
pub fn whole<S, R>(subject: &mut S, other: &S, call: &impl Fn(&mut S, &S) -> R) -> R {
    call(subject, other)
}

#[inline(never)]
pub fn call<S, R>(subject: S, other: &S, call: &impl Fn(S, &S) -> R) -> R {
    call(subject, other)
}

#[inline(never)]
pub fn once<S, R>(subject: &S, call: &impl Fn(&S) -> R) -> R {
    call(subject)
}
