//! One guest's life: set-up, the way to INIT, then calls of every kind, looked at from time to time.

use super::pair::Pair;
use super::plan::{late_frame, Plan};
use super::{calls, damage, former, lengths, observe};

pub fn live(pair: &mut Pair) {
    set_up(pair);
    if pair.stands() {
        former::begin(pair);
    }
    if !pair.stands() {
        return;
    }
    draw_focus(pair);
    let plan = Plan::draw(pair);
    plan.make(pair);
    former::found(pair);
    draw_focus(pair);
    if pair.guest().initialised {
        for _ in 0..pair.rng.below(4) {
            late_frame(pair);
        }
        #[cfg(feature = "its")]
        super::its::live(pair);
        let length = pair.rng.between(40, 260);
        body(pair, length);
    } else {
        let length = pair.rng.between(5, 30);
        body(pair, length);
    }
    pair.probe();
    let deep = pair.rng.one_in(8);
    observe::look(pair, deep);
}

/// Some set-ups with odd numbers, then one that is accepted.
fn set_up(pair: &mut Pair) {
    for _ in 0..pair.rng.below(3) {
        let call = calls::odd_setup(pair);
        pair.make(call, vec![]);
    }
    let call = calls::good_setup(pair);
    pair.make(call, vec![]);
}

/// The INTIDs and VCPUs that the sequence comes back to: an SGI, PPIs, neighbours in a shared bank, three of the last
/// bank. With 1,024 interrupts one of these is at the border to those that are none, and one is none (§4.17).
pub fn draw_focus(pair: &mut Pair) {
    let count = pair.guest().count as u64;
    let vcpus = pair.guest().vcpus.len() as u64;
    let rng = &mut pair.rng;
    let shared = 32 + rng.below(count - 32);
    pair.intids = vec![rng.below(16), 16 + rng.below(16), 16 + rng.below(16), shared, shared ^ 1];
    pair.intids.extend([32, 8, 4].map(|near| count - 1 - rng.below(near)));
    pair.vcpus = vec![rng.below(vcpus), rng.below(vcpus)];
}

fn body(pair: &mut Pair, length: u64) {
    for _ in 0..length {
        if !pair.stands() {
            return;
        }
        let (call, lent) = calls::any(pair);
        pair.make(call, lent);
        look_now_and_then(pair);
    }
}

pub fn look_now_and_then(pair: &mut Pair) {
    match pair.rng.below(400) {
        0..=15 => pair.probe(),
        16..=18 => observe::look(pair, false),
        19..=23 => lengths::wrong_length(pair),
        24..=27 => damage::damaged(pair),
        28 => {
            let call = calls::odd_setup(pair);
            pair.make(call, vec![]);
        }
        _ => {}
    }
}
