//! The keys that the cases work on: those of the proved program.

pub struct Keys {
    /// What is put in, in this order.
    pub stored: Vec<u64>,
    /// As many others, which aren't put in.
    pub absent: Vec<u64>,
    /// The positions from 0 on.
    pub positions: Vec<usize>,
    /// The positions, shuffled.
    pub shuffled_positions: Vec<usize>,
    /// What is put in, in the order of the shuffled positions.
    pub shuffled: Vec<u64>,
}

impl Keys {
    pub fn new(count: usize) -> Keys {
        let mut state = 88_172_645_463_325_252;
        let stored: Vec<u64> = (0..count).map(|_| step(&mut state)).collect();
        let absent = (0..count).map(|_| step(&mut state)).collect();
        let positions: Vec<usize> = (0..count).collect();
        let shuffled_positions = shuffled(&positions);
        let shuffled = shuffled_positions.iter().map(|position| stored[*position]).collect();
        Keys {
            stored,
            absent,
            positions,
            shuffled_positions,
            shuffled,
        }
    }
}

/// One step of the generator xorshift64.
fn step(state: &mut u64) -> u64 {
    *state ^= *state << 13;
    *state ^= *state >> 7;
    *state ^= *state << 17;
    *state
}

/// In the way of Fisher and Yates.
fn shuffled(positions: &[usize]) -> Vec<usize> {
    let mut order = positions.to_vec();
    let mut state = 0x9E37_79B9_7F4A_7C15;
    for i in (1..order.len()).rev() {
        order.swap(i, (step(&mut state) % (i as u64 + 1)) as usize);
    }
    order
}
