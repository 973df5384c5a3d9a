//! One call at random, weighted so that calls meet each other.

use super::attributes;
use super::pair::Pair;
use super::pick;
use crate::call::{Call, Device};

/// Any call but set-up.
pub fn any(pair: &mut Pair) -> (Call, Vec<u8>) {
    if !pair.guest().initialised {
        return before_init(pair);
    }
    let turn = pair.rng.below(100);
    match turn {
        0..=54 => (irq(pair), Vec::new()),
        55..=79 => attributes::registers(pair),
        80..=86 => attributes::addresses(pair),
        87..=89 => attributes::strange(pair),
        90..=91 => attributes::count(pair),
        92..=93 => attributes::control(pair),
        94..=95 => (redist(pair), Vec::new()),
        96 => (add(pair), Vec::new()),
        97 => (Call::Start, Vec::new()),
        _ => (Call::Stop, Vec::new()),
    }
}

/// Before INIT the interrupt calls and registers are refused: fewer of them, and more frames.
fn before_init(pair: &mut Pair) -> (Call, Vec<u8>) {
    match pair.rng.below(100) {
        0..=7 => (irq(pair), Vec::new()),
        8..=15 => attributes::registers(pair),
        16..=64 => attributes::addresses(pair),
        65..=70 => attributes::strange(pair),
        71..=76 => attributes::count(pair),
        77..=83 => attributes::control(pair),
        84..=86 => (redist(pair), Vec::new()),
        87..=95 => (add(pair), Vec::new()),
        96..=97 => (Call::Start, Vec::new()),
        _ => (Call::Stop, Vec::new()),
    }
}

pub fn add(pair: &mut Pair) -> Call {
    Call::VcpuAdd { affinity: pick::affinity(pair) }
}

fn redist(pair: &mut Pair) -> Call {
    Call::RedistBase { vcpu: pick::vcpu(pair) }
}

pub fn irq(pair: &mut Pair) -> Call {
    let (vcpu, intid) = (pick::vcpu(pair), pick::intid(pair));
    match pair.rng.below(12) {
        0..=3 => Call::Pending { vcpu, intid },
        4 => Call::SetPending { vcpu, intid },
        5 => Call::ClearPending { vcpu, intid },
        6 => Call::Activate { vcpu, intid },
        7..=9 => {
            let good = pair.rng.below(2);
            Call::Line { vcpu, intid, level: pick::mostly(pair, good, 20) }
        }
        _ => Call::Trigger { vcpu, intid, word: pick::word(pair) },
    }
}

/// Set-up with good numbers, in which memory often ends near 2^p.
pub fn good_setup(pair: &mut Pair) -> Call {
    let rng = &mut pair.rng;
    let width = rng.between(36, 52);
    let length = match rng.below(16) {
        0..=1 => 4096,
        2 => 1 << 30,
        3..=4 => 4096 * rng.between(300, 600),
        _ => 4096 * rng.between(2, 200),
    };
    let room = (1u64 << width) - length;
    let start = if rng.one_in(3) { room } else { rng.below(room / 4096 + 1) * 4096 };
    Call::Setup { width, start, length }
}

/// Set-up with one number spoilt; it may still be good.
pub fn odd_setup(pair: &mut Pair) -> Call {
    let Call::Setup { width, start, length } = good_setup(pair) else { unreachable!("set-up") };
    let top = 1u64 << width;
    match pair.rng.below(8) {
        0 => Call::Setup { width: pair.rng.pick(&[0, 35, 53, 64, 36, 52]), start, length },
        1 => Call::Setup { width: pick::mostly(pair, width, 1), start, length },
        2 => Call::Setup { width, start: start + pair.rng.pick(&[1, 0x800, 0x1000]), length },
        3 => Call::Setup { width, start: top - length + 4096, length },
        4 => Call::Setup { width, start: 0u64.wrapping_sub(length), length },
        5 => Call::Setup { width, start: pick::mostly(pair, start, 1), length },
        6 => {
            Call::Setup { width, start: 0, length: pair.rng.pick(&[0, 1, 4095, 4097, 8192, (1 << 30) + 4096, 1 << 31]) }
        }
        _ => Call::Setup { width, start, length: pick::mostly(pair, length, 1) },
    }
}

/// Each kind of call once, with numbers that would be good: for states on which all must be refused.
pub fn each_kind(pair: &mut Pair) -> Vec<(Call, Vec<u8>)> {
    let (vcpu, intid) = (0, 40);
    let mut list = vec![
        (Call::VcpuAdd { affinity: 77 }, vec![]),
        (Call::Start, vec![]),
        (Call::Stop, vec![]),
        (Call::RedistBase { vcpu }, vec![]),
        (Call::Pending { vcpu, intid }, vec![]),
        (Call::SetPending { vcpu, intid }, vec![]),
        (Call::ClearPending { vcpu, intid }, vec![]),
        (Call::Activate { vcpu, intid }, vec![]),
        (Call::Line { vcpu, intid, level: 1 }, vec![]),
        (Call::Trigger { vcpu, intid, word: 5 }, vec![]),
        (Call::Set { device: Device::Vgic, group: 0, attribute: 2 }, vec![0; 8]),
        (Call::Set { device: Device::Its, group: 0, attribute: 4 }, vec![0; 8]),
        (Call::Set { device: Device::Vgic, group: 9, attribute: 2 }, vec![0; 8]),
        (Call::Set { device: Device::Vgic, group: 3, attribute: 0 }, vec![64, 0, 0, 0]),
        (Call::Set { device: Device::Vgic, group: 4, attribute: 0 }, vec![]),
        (Call::Get { device: Device::Vgic, group: 3, attribute: 0 }, vec![1; 4]),
        (Call::Get { device: Device::Vgic, group: 9, attribute: 0 }, vec![1; 4]),
        (Call::Get { device: Device::Its, group: 0, attribute: 4 }, vec![1; 8]),
        (Call::Get { device: Device::Its, group: 0, attribute: 3 }, vec![1; 8]),
        (Call::Set { device: Device::Its, group: 4, attribute: 0 }, vec![]),
        (Call::Set { device: Device::Its, group: 4, attribute: 4 }, vec![]),
    ];
    #[cfg(feature = "its")]
    list.extend(super::its::each_kind(pair));
    list.push(any(pair));
    list
}
