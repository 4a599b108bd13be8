//! Whole numbers by their prime factors.

use std::collections::BTreeMap;

/// The primes of a number above 0, each with its power.
fn factors(x: u32) -> BTreeMap<u64, u32> {
    let mut left = u64::from(x);
    let mut powers = BTreeMap::new();
    let mut d = 2;
    while d * d <= left {
        while left % d == 0 {
            *powers.entry(d).or_insert(0) += 1;
            left /= d;
        }
        d += 1;
    }
    if left > 1 {
        *powers.entry(left).or_insert(0) += 1;
    }
    powers
}

/// With 0 it is the other number: every number divides 0.
pub fn gcd(a: u32, b: u32) -> u32 {
    if a == 0 || b == 0 {
        return a.max(b);
    }
    let other = factors(b);
    let common = factors(a).into_iter().map(|(p, e)| p.pow(e.min(*other.get(&p).unwrap_or(&0))));
    common.product::<u64>() as u32
}

/// The least common multiple, if it is not over the limit; with 0 it is 0, the only common multiple.
pub fn lcm(a: u32, b: u32, limit: u32) -> Option<u32> {
    if a == 0 || b == 0 {
        return Some(0);
    }
    let mut powers = factors(a);
    for (p, e) in factors(b) {
        let power = powers.entry(p).or_insert(0);
        *power = e.max(*power);
    }
    let least: u64 = powers.into_iter().map(|(p, e)| p.pow(e)).product();
    (least <= limit.into()).then_some(least as u32)
}

/// The least multiple of a period that is at least x; the only multiple of 0 is 0.
pub fn up(period: u32, x: u32) -> u64 {
    if period == 0 {
        return 0;
    }
    let (t, x) = (u64::from(period), u64::from(x));
    [x / t, x / t + 1].map(|k| k * t).into_iter().find(|&m| m >= x).unwrap()
}
