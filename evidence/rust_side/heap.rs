//! States of pairs of a sender and a receiver, each with one stream, as `bench heap N` has them: a line is printed while a state is held.
use crate::exchange::{text_of, Pair, Writer};

/// How many TSNs a receiver holds beyond the cumulative one, each apart from the others.
const APART: u32 = 1000;

/// Tells the states of so many pairs, and of one receiver.
pub fn run(pairs: usize) {
    tell_pairs(pairs);
    tell_tsns();
}

fn tell_pairs(pairs: usize) {
    let mut writer = Writer::New;
    println!("none of {pairs} pairs");
    let mut all = Vec::with_capacity(pairs);
    (0..pairs).for_each(|_| all.push(Pair::new()));
    println!("idle");
    let bytes: usize = all.iter_mut().map(|pair| pair.exchange(1, &text_of(100), &mut writer)).sum();
    println!("after a message of 100 bytes: {bytes} bytes");
    all.iter_mut().for_each(|pair| pair.burst(16, &text_of(65_536), &mut writer));
    println!("after 1 MiB that was read");
}

fn tell_tsns() {
    let mut pair = Pair::new();
    println!("a receiver");
    let read = pair.take_apart(2, APART);
    println!("with {APART} TSNs beyond the cumulative one, each apart, read: {read} bytes");
    let read = pair.take_apart(1, APART);
    println!("after these left: {read} bytes");
}
