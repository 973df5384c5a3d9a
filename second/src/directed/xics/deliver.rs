//! Part 14: deliverable (§14.11, §14.16), and a run with every answer beside it (§14.17).

use super::case::Case;
use crate::xics::Call;

pub const CASES: &[(&str, fn(&mut Case))] = &[
    ("§14.11, §14.16 deliverable needs pending 1 and masked 0; level plays no part", marks),
    ("§14.11, §14.16 the priority is below the current one, not equal", below),
    ("§14.11 a current priority of 0 lets nothing through", current_zero),
    ("§14.11 a priority of 255 is never below", lowest_priority),
    ("§14.16 a priority is a number of 8 bits without a sign", no_sign),
    ("§14.11 the current priority alone of a server's word plays a part", other_fields),
    ("§14.11 the server is the one that the destination names now", new_destination),
    ("§14.11 the destination is a server's number, not its row", number_not_row),
    ("§14.11 a source with a server of its own number as a neighbour", same_numbers),
    ("§14.11 a source that is not registered is -2, from 2^20 on too", missing),
    ("§14.11 a fresh source is not deliverable, whatever its server", fresh),
    ("§14.15 asking changes no byte", asking_twice),
    ("§14.11 sources are judged each by itself", each_by_itself),
    ("§14.17 a run, each answer from this part", run),
];

/// Server 7 in row 0 with current priority 5; source 5 in row 0.
fn one(c: &mut Case) {
    c.server(7);
    c.source(5, 7);
    c.set_server(0, 7, 0x0500_0000_ffff_0000, 0x0500_0000_ffff_0000);
}

/// A server's word with this current priority, and nothing pending.
fn current(priority: u64) -> u64 {
    priority << 56 | 0xffff_0000
}

/// Pending, not masked, destination 7.
fn ready(priority: u64) -> u64 {
    0x400_0000_0007 | priority << 32
}

fn marks(c: &mut Case) {
    one(c);
    // pending, masked and level, in this order, from high to low
    let rows = [
        (0x004_0000_0007, 0),
        (0x104_0000_0007, 0),
        (0x204_0000_0007, 0),
        (0x304_0000_0007, 0),
        (0x404_0000_0007, 1),
        (0x504_0000_0007, 1),
        (0x604_0000_0007, 0),
        (0x704_0000_0007, 0),
    ];
    for (word, want) in rows {
        c.set_source(0, 5, word);
        c.deliverable(5, want);
    }
}

/// A priority, the current one, and whether the first is below the second.
fn below(c: &mut Case) {
    one(c);
    let near = [(0, 5, 1), (3, 5, 1), (4, 5, 1), (5, 5, 0), (6, 5, 0), (254, 5, 0), (255, 5, 0)];
    let ends = [(254, 255, 1), (255, 255, 0), (254, 254, 0), (253, 254, 1), (0, 1, 1), (1, 1, 0), (127, 128, 1)];
    for (priority, now, want) in near.into_iter().chain(ends) {
        c.set_server(0, 7, current(now), current(now));
        c.set_source(0, 5, ready(priority));
        c.deliverable(5, want);
    }
}

fn current_zero(c: &mut Case) {
    one(c);
    c.set_server(0, 7, 0xffff_0000, 0xffff_0000);
    for priority in [0, 1, 255] {
        c.set_source(0, 5, ready(priority));
        c.deliverable(5, 0);
    }
}

fn lowest_priority(c: &mut Case) {
    one(c);
    c.set_source(0, 5, ready(255));
    for now in [0, 1, 128, 254, 255] {
        c.set_server(0, 7, current(now), current(now));
        c.deliverable(5, 0);
    }
}

fn no_sign(c: &mut Case) {
    one(c);
    for (priority, now, want) in [(0x7f, 0x80, 1), (0x80, 0x7f, 0), (0xfe, 0x01, 0), (0x01, 0xfe, 1), (0xf0, 0xf1, 1)] {
        c.set_server(0, 7, current(now), current(now));
        c.set_source(0, 5, ready(priority));
        c.deliverable(5, want);
    }
}

/// The pending priorities and the source number, at their ends and next to the source's own priority and number.
fn other_fields(c: &mut Case) {
    one(c);
    c.set_source(0, 5, ready(4));
    for low in [0xffff_0000, 0x00ff_0000, 0x1_0000_0000, 0x5_0004_0000, 0x5_0403_0000, 0xff_ffff_fffe_0000] {
        c.set_server(0, 7, 0x0500_0000_0000_0000 | low, 0x0500_0000_0000_0000 | low);
        c.deliverable(5, 1);
        c.set_server(0, 7, 0x0400_0000_0000_0000 | low, 0x0400_0000_0000_0000 | low);
        c.deliverable(5, 0);
    }
}

fn new_destination(c: &mut Case) {
    one(c);
    c.server(8);
    c.set_server(1, 8, current(9), current(9));
    c.set_source(0, 5, 0x406_0000_0007);
    c.deliverable(5, 0);
    c.set_source(0, 5, 0x406_0000_0008);
    c.deliverable(5, 1);
    c.set_server(0, 7, current(255), current(255));
    c.set_server(1, 8, current(6), current(6));
    c.deliverable(5, 0);
    c.set_source(0, 5, 0x406_0000_0007);
    c.deliverable(5, 1);
}

/// Server 1 stands in row 0, server 0 in row 1.
fn number_not_row(c: &mut Case) {
    c.server(1);
    c.server(0);
    c.source(5, 0);
    c.set_server(0, 1, current(9), current(9));
    c.set_source(0, 5, 0x404_0000_0000);
    c.deliverable(5, 0);
    c.set_source(0, 5, 0x404_0000_0001);
    c.deliverable(5, 1);
}

/// Source 5 goes to server 6; server 5 has nothing to do with it.
fn same_numbers(c: &mut Case) {
    c.server(5);
    c.server(6);
    c.source(5, 6);
    c.set_server(0, 5, current(255), current(255));
    c.set_source(0, 5, 0x404_0000_0006);
    c.deliverable(5, 0);
    c.set_server(0, 5, current(0), current(0));
    c.set_server(1, 6, current(5), current(5));
    c.deliverable(5, 1);
}

fn missing(c: &mut Case) {
    c.deliverable(0, -2);
    one(c);
    c.set_source(0, 5, ready(0));
    for source in [0, 4, 7, 0xf_ffff, 1 << 20, (1 << 20) + 5, (1 << 32) + 5, (1 << 63) + 5, u64::MAX] {
        c.deliverable(source, -2);
    }
    c.deliverable(5, 1);
}

fn fresh(c: &mut Case) {
    c.server(7);
    c.source(5, 7);
    c.deliverable(5, 0);
    c.set_server(0, 7, current(255), current(255));
    c.deliverable(5, 0);
    c.set_source(0, 5, 0x6fe_0000_0007);
    c.deliverable(5, 0);
    c.set_source(0, 5, 0x4fe_0000_0007);
    c.deliverable(5, 1);
}

/// The source's word stands after it, pending too, and so does the server's.
fn asking_twice(c: &mut Case) {
    one(c);
    c.set_source(0, 5, ready(4));
    c.deliverable(5, 1);
    c.deliverable(5, 1);
    c.source_is(5, 0x404_0000_0007);
    c.server_is(7, 0x0500_0000_ffff_0000);
    c.deliverable(5, 1);
}

fn each_by_itself(c: &mut Case) {
    one(c);
    c.source(6, 7);
    c.source(4, 7);
    c.set_source(1, 6, ready(0));
    c.deliverable(6, 1);
    c.deliverable(5, 0);
    c.set_source(0, 5, ready(4));
    c.deliverable(5, 1);
    c.deliverable(6, 1);
    c.deliverable(4, 0);
}

fn run(c: &mut Case) {
    c.no_source(17, 2, -2);
    c.server(2);
    c.server(0xffff_ffff);
    c.no_server(2, -17);
    c.no_server(1 << 32, -22);
    c.source(17, 2);
    c.no_source(17, 3, -17);
    c.no_source(1 << 20, 2, -22);
    c.no_source(18, 3, -2);
    c.deliverable(17, 0);
    c.set_source(0, 17, 0x510_0000_0002);
    c.deliverable(17, 0);
    c.no_set_server(2, 0x2000_0000_ff10_0000, -22);
    c.set_server(0, 2, 0x2000_0011_ff10_abcd, 0x2000_0011_ff10_0000);
    c.deliverable(17, 1);
    c.no_set_source(17, 0x510_0000_0003, -22);
    c.set_source(0, 17, 0x510_ffff_ffff);
    c.deliverable(17, 0);
    c.refuse(Call::GetSource { source: 17 }, &[0xee; 7], -14);
    c.source_is(17, 0x510_ffff_ffff);
    c.server_is(2, 0x2000_0011_ff10_0000);
    c.deliverable(18, -2);
}
