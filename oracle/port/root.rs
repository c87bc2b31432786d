//! The port's root against `f64::sqrt`, by bits: random significands over every exponent, subnormals, squares and
//! their neighbours by one unit, powers of two and their neighbours, random bit patterns, and values of no root.

use crate::port;
use oracle::generate::Random;

const DIGITS: u64 = (1 << 52) - 1;

struct Tally {
    compared: u64,
    differ: u64,
    left: u64,
}

impl Tally {
    /// Two NaNs are equal whatever their bits.
    fn compare(&mut self, x: f64) {
        if self.left == 0 {
            return;
        }
        self.left -= 1;
        self.compared += 1;
        let (port, rust) = (port::root(x), x.sqrt());
        if port.to_bits() != rust.to_bits() && !(port.is_nan() && rust.is_nan()) {
            self.differ += 1;
            if self.differ <= 10 {
                println!("DIFFERENCE: {:016X} gives {:016X} and not {:016X}", x.to_bits(), port.to_bits(), rust.to_bits());
            }
        }
    }

    /// x and the f64 next to it on either side, by bits.
    fn around(&mut self, x: f64) {
        let b = x.to_bits();
        self.compare(f64::from_bits(b.wrapping_sub(1)));
        self.compare(x);
        self.compare(f64::from_bits(b.wrapping_add(1)));
    }
}

fn kind(name: &str, count: u64, all: &mut Tally, mut make: impl FnMut(u64, &mut Tally)) {
    let mut t = Tally { compared: 0, differ: 0, left: count };
    let mut i = 0;
    while t.left > 0 {
        make(i, &mut t);
        i += 1;
    }
    println!("{:>10}  {name}: {} differ", t.compared, t.differ);
    all.compared += t.compared;
    all.differ += t.differ;
}

/// COUNT values, at least 100,000; the answer says whether all were equal.
pub fn run(seed: u64, count: u64) -> bool {
    let r = &mut Random::new(seed, 0);
    let count = count.max(100_000);
    let mut all = Tally { compared: 0, differ: 0, left: 0 };
    let part = count / 10;
    kind("every exponent, random significands", part * 4, &mut all, |i, t| t.compare(f64::from_bits((i % 2047) << 52 | r.next() & DIGITS)));
    kind("subnormals", part, &mut all, |_, t| {
        let cut = r.next() % 52;
        t.compare(f64::from_bits((r.next() & DIGITS) >> cut))
    });
    kind("squares of up to 26 digits and their neighbours", part, &mut all, |_, t| {
        let cut = 38 + r.next() % 26;
        let root = (r.next() >> cut) as f64;
        t.around(root * root)
    });
    kind("rounded squares and their neighbours", part, &mut all, |_, t| {
        let root = f64::from_bits((512 + r.next() % 1022) << 52 | r.next() & DIGITS);
        t.around(root * root)
    });
    kind("powers of two and their neighbours", 3 * 2046, &mut all, |i, t| t.around(f64::from_bits((1 + i % 2046) << 52)));
    kind("subnormal powers of two and their neighbours", 3 * 52, &mut all, |i, t| t.around(f64::from_bits(1 << (i % 52))));
    kind("zeros, infinities, NaNs and their neighbours", 18, &mut all, |i, t| {
        t.around(f64::from_bits([0, 1 << 63, 0x7FF << 52, 0xFFF << 52, u64::MAX, 0x7FF8 << 48][i as usize % 6]))
    });
    kind("random bits", count - all.compared, &mut all, |_, t| t.compare(f64::from_bits(r.next())));
    println!("{} compared, {} differ", all.compared, all.differ);
    all.differ == 0
}
