//! Part 1, but for the state's bytes: those are in `sound`.

use super::case::{Case, ITS, VGIC};

pub const CASES: &[(&str, fn(&mut Case))] = &[
    ("§1.4 p is 36 to 52", widths),
    ("§1.4 start and length are divisible by 4,096", multiples),
    ("§1.4 length is 4,096 to 2^30", lengths),
    ("§1.4, §2.10 memory may end at 2^p, not above", ends),
    ("§1.5 a fresh guest has no VCPU, no frame and 64 interrupts", fresh),
    ("§1.4, §2.4 a refused set-up leaves the guest that stands", refused_set_up),
    ("§1.5 an accepted set-up makes the guest fresh again", second_set_up),
    ("§1.6, §3.1 64 VCPUs are taken, a 65th is -12", vcpu_limit),
    ("§1.6, §3.8 32 regions are taken, a 33rd is -12", region_limit),
    ("§1.4, §3.5 p decides where frames may end", width_is_kept),
];

fn widths(c: &mut Case) {
    for width in [36, 37, 40, 48, 51, 52] {
        c.setup(width, 0x4000_0000, 0x1000, 0);
    }
    for width in [0, 1, 35, 53, 64, 100, 256 + 40, (1 << 32) + 40, u64::MAX] {
        c.setup(width, 0x4000_0000, 0x1000, -22);
    }
}

fn multiples(c: &mut Case) {
    for start in [0, 0x1000, 0x4000_0000, 0x4000_1000] {
        c.setup(40, start, 0x1000, 0);
    }
    for start in [1, 0x800, 0xfff, 0x1001, 0x4000_0800] {
        c.setup(40, start, 0x1000, -22);
    }
    for length in [0x1001, 0x1800, 0x1fff, 0x3fff_f800] {
        c.setup(40, 0x4000_0000, length, -22);
    }
}

fn lengths(c: &mut Case) {
    for length in [0x1000, 0x2000, 0x3fff_f000, 0x4000_0000] {
        c.setup(40, 0x4000_0000, length, 0);
    }
    for length in [0, 0x4000_1000, 0x8000_0000, 1 << 32, 1 << 63, 0xffff_ffff_ffff_f000] {
        c.setup(40, 0x4000_0000, length, -22);
    }
}

fn ends(c: &mut Case) {
    c.setup(36, 0xf_ffff_f000, 0x1000, 0);
    c.setup(36, 0xf_ffff_f000, 0x2000, -22);
    c.setup(36, 0x10_0000_0000, 0x1000, -22);
    c.setup(52, 0xf_ffff_c000_0000, 0x4000_0000, 0);
    c.setup(52, 0xf_ffff_c000_1000, 0x4000_0000, -22);
    // §2.10: in 64 bits this sum would come out as 0.
    c.setup(52, 0xffff_ffff_ffff_f000, 0x1000, -22);
    c.setup(52, 0xffff_ffff_c000_0000, 0x4000_0000, -22);
}

fn fresh(c: &mut Case) {
    c.no_get(VGIC, 0, 2, 8, -2);
    c.no_get(VGIC, 0, 3, 8, -2);
    c.no_get(ITS, 0, 4, 8, -2);
    c.get(VGIC, 0, 5, &[0; 8], -2, &[0; 8]);
    c.word(3, 0, 64);
    c.init(-19);
    c.redist(0, -6);
    c.pending(0, 40, -6);
    c.start(-6);
    c.add(0, 0);
    c.base(2, 0x0800_0000, 0);
    c.base(3, 0x080a_0000, 0);
    c.init(0);
    c.redist(0, 0x080a_0000);
    c.redist(1, -22);
}

fn refused_set_up(c: &mut Case) {
    c.ready(2);
    c.raise(0, 40, 0);
    c.setup(53, 0x4000_0000, 0x1000, -22);
    c.setup(40, 0x4000_0001, 0x1000, -22);
    c.setup(40, 0x4000_0000, 0, -22);
    c.redist(1, 0x080c_0000);
    c.pending(0, 40, 1);
}

fn second_set_up(c: &mut Case) {
    c.put(3, 0, 512, 0);
    c.ready(2);
    c.raise(0, 40, 0);
    c.raise(0, 70, 0);
    c.put(1, 0x10, 7, 0);
    c.its_base(0x0900_0000, 0);
    c.start(0);
    c.setup(41, 0x4000_0000, 0x1000, 0);
    fresh(c);
    c.pending(0, 40, 0);
    c.pending(0, 70, 0);
    c.word(1, 0x208, 0);
    c.word(1, 0x10, 0);
}

fn vcpu_limit(c: &mut Case) {
    c.adds(64);
    c.add(64, -12);
    c.add(0xffff_ffff, -12);
    c.base(2, 0x0800_0000, 0);
    c.base(3, 0x1000_0000, 0);
    c.init(0);
    c.redist(63, 0x107e_0000);
    c.redist(64, -22);
}

fn region_limit(c: &mut Case) {
    for index in 0..32 {
        c.region(index, 0x1000_0000 + index * 0x10_0000, 2, 0);
    }
    c.region(32, 0x1000_0000 + 32 * 0x10_0000, 2, -12);
    c.held_region(31, 0x0020_0000_11f0_001f);
    c.get(VGIC, 0, 5, &32u64.to_le_bytes(), -2, &32u64.to_le_bytes());
}

fn width_is_kept(c: &mut Case) {
    c.setup(36, 0x4000_0000, 0x1000, 0);
    c.base(2, 0x10_0000_0000, -7);
    c.base(2, 0xf_ffff_0000, 0);
    c.setup(37, 0x4000_0000, 0x1000, 0);
    c.base(2, 0x10_0000_0000, 0);
    c.setup(52, 0x4000_0000, 0x1000, 0);
    c.base(2, 0xf_ffff_ffff_0000, 0);
}
