//! Part 2: answers, names, values and the order of the tests.

use super::case::{Case, ITS, VGIC};

pub const CASES: &[(&str, fn(&mut Case))] = &[
    ("§2.6 an unknown group is -6, compared whole", unknown_groups),
    ("§2.6 an unknown attribute of the VGIC's group 0 is -6", unknown_addresses),
    ("§2.6 an unknown attribute of the ITS's group 0 is -19", its_addresses),
    ("§2.7 groups 3 and 4 know no other attributes", unknown_controls),
    ("§2.5 an unknown name comes before a wrong width", name_before_width),
    ("§2.8, §2.4 a wrong width is -14 and leaves the bytes", wrong_widths),
    ("§2.5 a wrong width comes before not ready", width_before_ready),
    ("§2.5 a wrong width comes before running", width_before_running),
    ("§2.5, §2.6 not ready comes before a call's own faults", ready_before_own),
    ("§2.5, §4.12 running comes before a call's own faults", running_before_own),
    ("§2.9 group 4 has no get", no_control_get),
    ("§2.9 group 4 lends no value", no_control_value),
    ("§2.9 save and restore through the set call are -14", tables_by_set),
    ("§2.3 calls that ask for no number answer 0", plain_success),
    ("§2.8 values are little endian", little_endian),
    ("§2.1, §2.2 each refusal of the table", each_refusal),
    ("§2.4 a refused call leaves all as it was", nothing_changes),
];

const STRANGE_GROUPS: [u64; 10] = [2, 6, 8, 9, 255, 256, 1 << 32, (1 << 32) + 1, 1 << 63, u64::MAX];

fn unknown_groups(c: &mut Case) {
    for ready in [false, true] {
        if ready {
            c.ready(1);
        }
        for group in STRANGE_GROUPS {
            for attribute in [0, 2, 4, 0x10] {
                c.set(VGIC, group, attribute, &[0; 8], -6);
                c.no_get(VGIC, group, attribute, 8, -6);
                c.set(ITS, group, attribute, &[0; 8], -6);
                c.no_get(ITS, group, attribute, 8, -6);
            }
        }
        for group in [1, 3, 5, 7, 8] {
            c.set(ITS, group, 0x10, &[0; 4], -6);
            c.no_get(ITS, group, 0, 4, -6);
            c.no_get(ITS, group, 0x10200, 4, -6);
        }
    }
    c.set(VGIC, (1 << 32) + 4, 0, &[], -6);
    c.put((1 << 32) + 3, 0, 64, -6);
    c.no_get(VGIC, 1 << 32, 2, 8, -6);
}

fn unknown_addresses(c: &mut Case) {
    for attribute in [0, 1, 4, 6, 7, (1 << 32) + 2, (1 << 32) + 3, (1 << 63) + 5, u64::MAX] {
        c.base(attribute, 0x0800_0000, -6);
        c.no_get(VGIC, 0, attribute, 8, -6);
        c.no_get(VGIC, 0, attribute, 3, -6);
    }
}

fn its_addresses(c: &mut Case) {
    for attribute in [0, 1, 2, 3, 5, 6, (1 << 32) + 4, (1 << 63) + 4, u64::MAX] {
        for width in [0, 4, 8, 9] {
            c.set(ITS, 0, attribute, &vec![0; width], -19);
            c.no_get(ITS, 0, attribute, width, -19);
        }
    }
    c.its_base(0x0900_0000, 0);
    c.set(ITS, 0, 2, &[0; 8], -19);
    c.held_base(ITS, 4, 0x0900_0000);
}

fn unknown_controls(c: &mut Case) {
    for attribute in [1, 2, 3, 4, 5, 1 << 32, 1 << 63, u64::MAX] {
        c.put(3, attribute, 64, -6);
        c.no_get(VGIC, 3, attribute, 4, -6);
        c.set(VGIC, 4, attribute, &[], -6);
        c.set(VGIC, 4, attribute, &[0; 4], -6);
    }
    for attribute in [3, 5, 6, 1 << 32, (1 << 32) + 1, (1 << 63) + 4, u64::MAX] {
        c.set(ITS, 4, attribute, &[], -6);
        c.set(ITS, 4, attribute, &[0; 8], -6);
    }
    c.word(3, 0, 64);
}

fn name_before_width(c: &mut Case) {
    c.set(VGIC, 2, 0, &[], -6);
    c.set(VGIC, 0, 4, &[0; 3], -6);
    c.set(VGIC, 1, 0x14, &[0; 8], -6);
    c.set(VGIC, 5, 0x10204, &[0; 3], -6);
    c.set(VGIC, 3, 1, &[0; 8], -6);
    c.set(VGIC, 4, 1, &[0; 1], -6);
    c.set(ITS, 1, 0, &[], -6);
    c.no_get(VGIC, 1, 0x14, 8, -6);
    c.no_get(VGIC, 5, 0x200, 3, -6);
}

const WIDTHS: [usize; 9] = [0, 1, 3, 4, 5, 7, 8, 9, 16];

fn wrong_widths(c: &mut Case) {
    c.ready(1);
    for width in WIDTHS {
        let value = vec![0; width];
        if width != 8 {
            for attribute in [2, 3, 5] {
                c.set(VGIC, 0, attribute, &value, -14);
                c.no_get(VGIC, 0, attribute, width, -14);
            }
            c.set(ITS, 0, 4, &value, -14);
            c.no_get(ITS, 0, 4, width, -14);
        }
        if width != 4 {
            for (group, attribute) in [(1, 0x10), (1, 0x200), (1, 0x204), (1, 0x280), (3, 0), (7, 0), (7, 33)] {
                c.set(VGIC, group, attribute, &value, -14);
                c.no_get(VGIC, group, attribute, width, -14);
            }
            for attribute in [0x10, 0x10200, 0x10280, (9 << 32) + 0x10] {
                c.set(VGIC, 5, attribute, &value, -14);
                c.no_get(VGIC, 5, attribute, width, -14);
            }
        }
    }
}

fn width_before_ready(c: &mut Case) {
    for (group, attribute) in [(1, 0x10), (1, 0x204), (5, 0x10), (5, 0x10200), (7, 0), (7, 32)] {
        c.set(VGIC, group, attribute, &[0; 8], -14);
        c.no_get(VGIC, group, attribute, 8, -14);
        c.put(group, attribute, 0, -6);
        c.no_get(VGIC, group, attribute, 4, -6);
    }
    c.set(VGIC, 4, 0, &[0], -14);
}

fn width_before_running(c: &mut Case) {
    c.ready(1);
    c.start(0);
    for (group, attribute) in [(1, 0x10), (1, 0x204), (5, 0x10), (5, 0x10200)] {
        c.set(VGIC, group, attribute, &[0; 8], -14);
        c.no_get(VGIC, group, attribute, 5, -14);
        c.put(group, attribute, 0, -16);
        c.no_get(VGIC, group, attribute, 4, -16);
    }
    c.put(1, 0x14, 0, -6);
    c.put(5, 0x200, 0, -6);
}

fn ready_before_own(c: &mut Case) {
    c.add(7, 0);
    c.put(5, (9 << 32) + 0x10200, 0, -6);
    c.no_get(VGIC, 5, (9 << 32) + 0x10, 4, -6);
    c.put(7, 16, 0, -6);
    c.put(7, 1 << 10, 0, -6);
    c.put(7, 9 << 32, 0, -6);
    c.no_get(VGIC, 7, 16, 4, -6);
    c.pending(9, 5000, -6);
    c.raise(9, 5000, -6);
    c.clear(9, 5000, -6);
    c.activate(9, 5000, -6);
    c.line(9, 5000, 9, -6);
    c.trigger(9, 5000, 0, -6);
    c.redist(9, -6);
    c.start(-6);
    c.stop(-6);
}

fn running_before_own(c: &mut Case) {
    c.ready(1);
    c.start(0);
    c.put(5, (9 << 32) + 0x10200, 0, -16);
    c.no_get(VGIC, 5, (9 << 32) + 0x10, 4, -16);
    c.stop(0);
    c.put(5, (9 << 32) + 0x10200, 0, -22);
    c.no_get(VGIC, 5, (9 << 32) + 0x10, 4, -22);
    c.put(5, (9 << 32) + 0x10280, 0, -22);
}

fn no_control_get(c: &mut Case) {
    for ready in [false, true] {
        if ready {
            c.ready(1);
        }
        for attribute in [0, 1, 2, 3, 4, 5, 1 << 32, u64::MAX] {
            for width in [0, 1, 4, 8] {
                c.no_get(VGIC, 4, attribute, width, -6);
                c.no_get(ITS, 4, attribute, width, -6);
            }
        }
    }
}

fn no_control_value(c: &mut Case) {
    for width in [1, 3, 4, 8, 16] {
        c.set(VGIC, 4, 0, &vec![0; width], -14);
        c.set(ITS, 4, 0, &vec![0; width], -14);
        c.set(ITS, 4, 4, &vec![0; width], -14);
    }
    c.ready(1);
    c.set(VGIC, 4, 0, &[0; 8], -14);
    c.init(0);
}

fn tables_by_set(c: &mut Case) {
    for ready in [false, true] {
        if ready {
            c.ready(1);
            c.its_base(0x0900_0000, 0);
            c.start(0);
        }
        for attribute in [1, 2] {
            for width in [0, 1, 4, 8] {
                c.set(ITS, 4, attribute, &vec![0; width], -14);
            }
        }
    }
}

fn plain_success(c: &mut Case) {
    c.add(5, 0);
    c.add(6, 0);
    c.base(2, 0x0800_0000, 0);
    c.base(3, 0x080a_0000, 0);
    c.its_base(0x0900_0000, 0);
    c.put(3, 0, 96, 0);
    c.init(0);
    c.start(0);
    c.raise(1, 40, 0);
    c.raise(1, 40, 0);
    c.clear(1, 40, 0);
    c.activate(1, 40, 0);
    c.line(1, 40, 1, 0);
    c.trigger(1, 40, u32::MAX, 0);
    c.stop(0);
    c.put(1, 0x204, 3, 0);
    c.put(5, (6 << 32) + 0x10200, 3, 0);
    c.put(7, 32, 3, 0);
}

fn little_endian(c: &mut Case) {
    c.set(VGIC, 0, 2, &[0, 0, 1, 2, 3, 0, 0, 0], 0);
    c.get(VGIC, 0, 2, &[9; 8], 0, &[0, 0, 1, 2, 3, 0, 0, 0]);
    c.set(VGIC, 3, 0, &[0x60, 1, 0, 0], 0);
    c.get(VGIC, 3, 0, &[9; 4], 0, &[0x60, 1, 0, 0]);
    c.add(0, 0);
    c.base(3, 0x0800_0000, 0);
    c.init(0);
    c.set(VGIC, 1, 0x204, &[1, 2, 4, 0x80], 0);
    c.get(VGIC, 1, 0x204, &[9; 4], 0, &[1, 2, 4, 0x80]);
    c.pending(0, 32, 1);
    c.pending(0, 41, 1);
    c.pending(0, 50, 1);
    c.pending(0, 63, 1);
    c.pending(0, 33, 0);
}

fn each_refusal(c: &mut Case) {
    c.no_get(VGIC, 0, 2, 8, -2);
    c.put(2, 0, 0, -6);
    c.start(-6);
    c.base(2, 1 << 40, -7);
    c.set(VGIC, 0, 2, &[0; 4], -14);
    c.init(-19);
    c.set(ITS, 0, 0, &[0; 8], -19);
    c.base(2, 0x0800_0001, -22);
    c.base(2, 0x0800_0000, 0);
    c.base(2, 0x0800_0000, -17);
    c.adds(64);
    c.add(64, -12);
    c.base(3, 0x0900_0000, 0);
    c.init(0);
    c.add(64, -16);
    c.start(0);
    c.no_get(VGIC, 1, 0x204, 4, -16);
}

/// The bytes of state and value are compared around each call; here the guest is asked as well.
fn nothing_changes(c: &mut Case) {
    c.ready(2);
    c.raise(1, 20, 0);
    c.put(1, 0x204, 0x55, 0);
    c.put(7, 32, 0xaa, 0);
    c.put(1, 0x10, 3, 0);
    c.setup(35, 0x4000_0000, 0x1000, -22);
    c.add(9, -16);
    c.base(2, 0x0a00_0000, -17);
    c.region(0, 0x0a00_0000, 1, -22);
    c.its_base(0x0800_0000, -22);
    c.put(3, 0, 256, -16);
    c.redist(2, -22);
    for call in [Case::raise, Case::clear, Case::activate, Case::pending] {
        call(c, 2, 32, -22);
        call(c, 0, 1024, -22);
    }
    c.line(0, 32, 2, -22);
    c.trigger(0, 1024, u32::MAX, -22);
    c.put(7, 33, u32::MAX, -22);
    c.put(5, (9 << 32) + 0x10200, u32::MAX, -22);
    c.start(0);
    c.put(1, 0x204, u32::MAX, -16);
    c.put(5, 0x10, 7, -16);
    c.stop(0);
    c.word(1, 0x204, 0x55);
    c.word(7, 32, 0xaa);
    c.word(1, 0x10, 3);
    c.word(5, 0x10, 0);
    c.word(5, (1 << 32) + 0x10200, 1 << 20);
    c.word(3, 0, 64);
    c.held_base(VGIC, 2, 0x0800_0000);
    c.no_get(ITS, 0, 4, 8, -2);
    c.redist(1, 0x080c_0000);
}
