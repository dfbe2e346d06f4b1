//! Pseudo-random numbers for the tests, the same in each run.

#![allow(dead_code)]

/// splitmix64.
pub fn random(state: &mut u64) -> u64 {
    *state = state.wrapping_add(0x9E37_79B9_7F4A_7C15);
    let z = (*state ^ (*state >> 30)).wrapping_mul(0xBF58_476D_1CE4_E5B9);
    let z = (z ^ (z >> 27)).wrapping_mul(0x94D0_49BB_1331_11EB);
    z ^ (z >> 31)
}

/// A number below n.
pub fn below(n: usize, state: &mut u64) -> usize {
    (random(state) >> 16) as usize % n
}

/// One of a list.
pub fn any_of<T: Copy>(list: &[T], state: &mut u64) -> T {
    list[below(list.len(), state)]
}

/// All of them, or so many at random where there are more.
pub fn some<T: Clone>(list: Vec<T>, most: usize, state: &mut u64) -> Vec<T> {
    if list.len() <= most {
        return list;
    }
    (0..most).map(|_| list[below(list.len(), state)].clone()).collect()
}

/// The same ones in another sequence.
pub fn shuffled<T>(mut list: Vec<T>, state: &mut u64) -> Vec<T> {
    (1..list.len()).for_each(|i| list.swap(i, below(i + 1, state)));
    list
}
