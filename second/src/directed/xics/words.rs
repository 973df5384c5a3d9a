//! Part 14: words (§14.5, §14.6, §14.9 to §14.11, §14.15).

use super::case::Case;
use crate::xics::Call;

pub const CASES: &[(&str, fn(&mut Case))] = &[
    ("§14.5, §14.9 each field of a source's word by itself", source_fields),
    ("§14.9, §14.15 a source's word comes back as it was set", source_kept),
    ("§14.9 a bit above 42 is -22, each by itself", source_bits),
    ("§14.9 a destination without a server is -22", source_destination),
    ("§14.9 the destination is tested whatever the other fields are", destination_always),
    ("§14.9 a destination is all of 32 bits", whole_destination),
    ("§14.9 a set may change the destination", other_destination),
    ("§14.9 a width that is not 8 is -14", source_widths),
    ("§14.9, §14.3 a wrong width comes before a missing source and a wrong word", source_width_first),
    ("§14.9 a missing source is -2, from 2^20 on too", source_missing),
    ("§14.9 a missing source comes before a wrong word", source_missing_first),
    ("§14.9 two faults of a source's word at once are -22", source_both),
    ("§14.6, §14.10 each field of a server's word by itself", server_fields),
    ("§14.10, §14.15 a server's word comes back less its bits 15:0", server_kept),
    ("§14.10 bits 15:0 are not looked at and become 0, each by itself", low_bits),
    ("§14.10 bits 15:0 do not save a word from -22", low_bits_no_help),
    ("§14.10 no source and a pending priority below 255 are -22", no_source_pending),
    ("§14.10 a source and a pending priority of 255 are -22", source_not_pending),
    ("§14.10 a source number need not be registered nor be below 2^20", any_source),
    ("§14.10 the IPI priority and the current one are free", free_priorities),
    ("§14.10 a width that is not 8 is -14", server_widths),
    ("§14.10, §14.3 a wrong width comes before a missing server and a wrong word", server_width_first),
    ("§14.10 a missing server is -2, from 2^32 on too", server_missing),
    ("§14.10 a missing server comes before a wrong word", server_missing_first),
    ("§14.11 a get fills all 8 bytes", gets_fill),
    ("§14.11 a get of a width that is not 8 is -14", get_widths),
    ("§14.11, §14.3 a wrong width comes before a missing number", get_width_first),
    ("§14.11 a get of what is not registered is -2 and leaves the value", get_missing),
    ("§14.15 a set leaves every other word", others_stand),
    ("§14.15 a refused set leaves the word", refused_set),
    ("§14.9, §14.10 the last of 64 rows is set and asked like the first", last_rows),
];

const WIDTHS: [usize; 8] = [0, 1, 4, 7, 9, 12, 16, 64];

/// Server 7 in row 0, server 0 in row 1; source 5 in row 0, source 6 in row 1.
fn two(c: &mut Case) {
    c.server(7);
    c.server(0);
    c.source(5, 7);
    c.source(6, 0);
}

fn source_fields(c: &mut Case) {
    two(c);
    let fields = [0, 7, 0x01_0000_0000, 0x80_0000_0000, 0xff_0000_0000, 0x100_0000_0000, 0x200_0000_0000];
    for word in fields.into_iter().chain([0x400_0000_0000, 0x7ff_0000_0000, 0x7ff_0000_0007]) {
        c.set_source(0, 5, word);
        c.source_is(5, word);
    }
}

fn source_kept(c: &mut Case) {
    two(c);
    for bit in 32..43 {
        c.set_source(1, 6, 1 << bit);
        c.source_is(6, 1 << bit);
        c.set_source(1, 6, (0x7ff_0000_0000 ^ 1 << bit) + 7);
        c.source_is(6, (0x7ff_0000_0000 ^ 1 << bit) + 7);
    }
}

fn source_bits(c: &mut Case) {
    two(c);
    for bit in 43..64 {
        c.no_set_source(5, 1 << bit, -22);
        c.no_set_source(5, 0x2ff_0000_0007 | 1 << bit, -22);
    }
    c.no_set_source(5, 0xffff_f800_0000_0007, -22);
    c.set_source(0, 5, 0x7ff_0000_0007);
    c.no_set_source(5, 0x800_0000_0007, -22);
    c.source_is(5, 0x7ff_0000_0007);
}

/// 5 and 6 are sources, not servers; 8 is neither.
fn source_destination(c: &mut Case) {
    two(c);
    for destination in [1, 5, 6, 8, 0x100, 0xffff_ffff] {
        c.no_set_source(5, 0x404_0000_0000 + destination, -22);
        c.no_set_source(6, destination, -22);
    }
    c.source_is(5, 0x2ff_0000_0007);
    c.server(8);
    c.set_source(0, 5, 0x404_0000_0008);
}

fn destination_always(c: &mut Case) {
    two(c);
    let priorities = [0, 0x01_0000_0000, 0xfe_0000_0000, 0xff_0000_0000];
    let marks = (0..8).map(|marks| marks << 40);
    for word in marks.flat_map(|marks| priorities.map(|priority| marks + priority)) {
        c.no_set_source(5, word + 8, -22);
    }
    c.set_source(0, 5, 0x2ff_0000_0000);
}

fn whole_destination(c: &mut Case) {
    two(c);
    for bit in 3..32 {
        c.no_set_source(5, 7 | 1 << bit, -22);
    }
    c.server(0x8000_0007);
    c.set_source(0, 5, 0x8000_0007);
    c.source_is(5, 0x8000_0007);
}

fn other_destination(c: &mut Case) {
    two(c);
    c.set_source(0, 5, 0x2ff_0000_0000);
    c.set_source(1, 6, 0x2ff_0000_0007);
    c.source_is(5, 0x2ff_0000_0000);
    c.source_is(6, 0x2ff_0000_0007);
    c.server(0xffff_ffff);
    c.set_source(0, 5, 0x2ff_ffff_ffff);
    c.source_is(5, 0x2ff_ffff_ffff);
}

/// The first 8 bytes, or the 8 with zeros, would be a good word.
fn source_widths(c: &mut Case) {
    two(c);
    for width in WIDTHS {
        c.refuse(Call::SetSource { source: 6 }, &vec![0; width], -14);
    }
    c.source_is(6, 0x2ff_0000_0000);
}

fn source_width_first(c: &mut Case) {
    two(c);
    for width in WIDTHS {
        c.refuse(Call::SetSource { source: 8 }, &vec![0; width], -14);
        c.refuse(Call::SetSource { source: 1 << 20 }, &vec![0; width], -14);
        c.refuse(Call::SetSource { source: 5 }, &vec![0xff; width], -14);
        c.refuse(Call::SetSource { source: 5 }, &vec![1; width], -14);
        c.refuse(Call::SetSource { source: 8 }, &vec![0xff; width], -14);
    }
}

fn source_missing(c: &mut Case) {
    two(c);
    for source in [0, 4, 7, 0xf_ffff, 1 << 20, (1 << 20) + 5, (1 << 32) + 5, (1 << 63) + 5, u64::MAX] {
        c.no_set_source(source, 0x2ff_0000_0007, -2);
    }
}

fn source_missing_first(c: &mut Case) {
    two(c);
    c.no_set_source(4, 0x800_0000_0007, -2);
    c.no_set_source(4, 0x2ff_0000_0008, -2);
    c.no_set_source(1 << 20, u64::MAX, -2);
}

fn source_both(c: &mut Case) {
    two(c);
    c.no_set_source(5, 0x800_0000_0008, -22);
    c.no_set_source(5, u64::MAX, -22);
}

/// The first ten have the fields of one server alone or in turn, the last four those of another one together.
fn server_fields(c: &mut Case) {
    two(c);
    let sources = [0x1_00fe_0000, 0x80_0000_0000_0000, 0xff_ffff_0000_0000, 0x1_0001_0000, 0x1_0080_0000];
    let priorities = [0xff_0000, 0x1ff_0000, 0x80ff_0000, 0xffff_0000, 0x0100_0000_00ff_0000];
    let others = [0x8000_0000_00ff_0000, 0xff00_0000_ffff_0000, 0xffff_ffff_fffe_0000, 0x1234_5678_9abc_0000];
    let first = sources.into_iter().chain(priorities).map(|word| (0, 7, word));
    for (row, server, word) in first.chain(others.map(|word| (1, 0, word))) {
        c.set_server(row, server, word, word);
        c.server_is(server, word);
    }
}

fn server_kept(c: &mut Case) {
    two(c);
    c.set_server(0, 7, 0x1234_5678_9abc_def0, 0x1234_5678_9abc_0000);
    c.server_is(7, 0x1234_5678_9abc_0000);
    c.set_server(1, 0, 0xffff_ffff_fffe_ffff, 0xffff_ffff_fffe_0000);
    c.server_is(0, 0xffff_ffff_fffe_0000);
}

fn low_bits(c: &mut Case) {
    two(c);
    for bit in 0..16 {
        c.set_server(0, 7, 0x0500_0000_ffff_0000 | 1 << bit, 0x0500_0000_ffff_0000);
        c.server_is(7, 0x0500_0000_ffff_0000);
        c.set_server(0, 7, 0x0500_0001_ff00_0000 | 1 << bit, 0x0500_0001_ff00_0000);
    }
    c.set_server(0, 7, 0x0500_0000_ffff_ffff, 0x0500_0000_ffff_0000);
}

fn low_bits_no_help(c: &mut Case) {
    two(c);
    c.no_set_server(7, 0x0500_0000_0000_ffff, -22);
    c.no_set_server(7, 0x0500_0000_ff00_00ff, -22);
    c.no_set_server(7, 0x0500_0001_00ff_ffff, -22);
}

/// Each pending priority below 255.
fn no_source_pending(c: &mut Case) {
    two(c);
    for pending in 0..255 {
        c.no_set_server(7, pending << 16, -22);
    }
    c.no_set_server(7, 0xff00_0000_fffe_0000, -22);
    c.set_server(0, 7, 0xff_0000, 0xff_0000);
}

/// Each bit of the source number.
fn source_not_pending(c: &mut Case) {
    two(c);
    for bit in 32..56 {
        c.no_set_server(7, 0xff_0000 | 1 << bit, -22);
    }
    c.no_set_server(7, 0x00ff_ffff_00ff_0000, -22);
    c.no_set_server(7, 0xff00_0002_ffff_0000, -22);
    c.set_server(0, 7, 0x00ff_ffff_00fe_0000, 0x00ff_ffff_00fe_0000);
}

/// 5 and 6 are registered; 2 is an IPI's number elsewhere and is like any other here.
fn any_source(c: &mut Case) {
    two(c);
    for source in [1, 2, 4, 5, 6, 7, 0xf_ffff, 0x10_0000, 0x10_0005, 0x80_0000, 0xff_fffe, 0xff_ffff] {
        c.set_server(0, 7, source << 32, source << 32);
        c.set_server(0, 7, source << 32 | 0xfffe_0000, source << 32 | 0xfffe_0000);
        c.server_is(7, source << 32 | 0xfffe_0000);
        c.no_set_server(7, source << 32 | 0xffff_0000, -22);
    }
}

fn free_priorities(c: &mut Case) {
    two(c);
    for priority in [0, 1, 2, 127, 128, 254, 255] {
        c.set_server(0, 7, priority << 24 | 0xff_0000, priority << 24 | 0xff_0000);
        c.set_server(0, 7, priority << 56 | 0xff_0000, priority << 56 | 0xff_0000);
        c.set_server(0, 7, priority << 24 | 0x2_0000_0000, priority << 24 | 0x2_0000_0000);
        c.set_server(0, 7, priority << 56 | 0x2_0000_0000, priority << 56 | 0x2_0000_0000);
    }
}

/// 8 bytes of 1 are a word that is taken.
fn server_widths(c: &mut Case) {
    two(c);
    for width in WIDTHS {
        c.refuse(Call::SetServer { server: 7 }, &vec![1; width], -14);
    }
    c.set_server(0, 7, 0x0101_0101_0101_0101, 0x0101_0101_0101_0000);
}

fn server_width_first(c: &mut Case) {
    two(c);
    for width in WIDTHS {
        c.refuse(Call::SetServer { server: 8 }, &vec![1; width], -14);
        c.refuse(Call::SetServer { server: 1 << 32 }, &vec![1; width], -14);
        c.refuse(Call::SetServer { server: 7 }, &vec![0; width], -14);
        c.refuse(Call::SetServer { server: 7 }, &vec![0xff; width], -14);
        c.refuse(Call::SetServer { server: 8 }, &vec![0; width], -14);
    }
}

fn server_missing(c: &mut Case) {
    two(c);
    for server in [1, 5, 8, 0xffff_ffff, 1 << 32, (1 << 32) + 7, (1 << 63) + 7, u64::MAX] {
        c.no_set_server(server, 0xffff_0000, -2);
    }
}

fn server_missing_first(c: &mut Case) {
    two(c);
    c.no_set_server(8, 0, -2);
    c.no_set_server(8, u64::MAX, -2);
    c.no_set_server(1 << 32, 0, -2);
}

fn gets_fill(c: &mut Case) {
    two(c);
    for preset in [0, 0xff, 0x5a] {
        c.make(Call::GetSource { source: 5 }, &[preset; 8], 0, &[], &[7, 0, 0, 0, 0xff, 2, 0, 0]);
        c.make(Call::GetServer { server: 7 }, &[preset; 8], 0, &[], &[0, 0, 0xff, 0xff, 0, 0, 0, 0]);
    }
}

fn get_widths(c: &mut Case) {
    two(c);
    for width in WIDTHS {
        c.refuse(Call::GetSource { source: 5 }, &vec![0xee; width], -14);
        c.refuse(Call::GetServer { server: 7 }, &vec![0xee; width], -14);
    }
}

fn get_width_first(c: &mut Case) {
    two(c);
    for width in WIDTHS {
        c.refuse(Call::GetSource { source: 8 }, &vec![0xee; width], -14);
        c.refuse(Call::GetSource { source: 1 << 20 }, &vec![0xee; width], -14);
        c.refuse(Call::GetServer { server: 8 }, &vec![0xee; width], -14);
        c.refuse(Call::GetServer { server: 1 << 32 }, &vec![0xee; width], -14);
    }
}

fn get_missing(c: &mut Case) {
    c.no_get_source(5, -2);
    c.no_get_server(7, -2);
    two(c);
    for number in [1, 8, 0xf_ffff, 1 << 20, (1 << 20) + 5, 0xffff_ffff, (1 << 32) + 7, (1 << 63) + 5, u64::MAX] {
        c.no_get_source(number, -2);
        c.no_get_server(number, -2);
    }
}

fn others_stand(c: &mut Case) {
    two(c);
    c.set_source(0, 5, 0x123_0000_0000);
    c.source_is(6, 0x2ff_0000_0000);
    c.server_is(7, 0xffff_0000);
    c.server_is(0, 0xffff_0000);
    c.set_server(1, 0, 0x0900_0006_0102_0000, 0x0900_0006_0102_0000);
    c.server_is(7, 0xffff_0000);
    c.source_is(5, 0x123_0000_0000);
    c.source_is(6, 0x2ff_0000_0000);
    c.set_source(1, 6, 0x456_0000_0007);
    c.source_is(5, 0x123_0000_0000);
    c.server_is(0, 0x0900_0006_0102_0000);
}

fn refused_set(c: &mut Case) {
    two(c);
    c.set_source(0, 5, 0x123_0000_0000);
    c.set_server(0, 7, 0x0900_0006_0102_0000, 0x0900_0006_0102_0000);
    c.no_set_source(5, 0x923_0000_0007, -22);
    c.no_set_source(5, 0x456_0000_0001, -22);
    c.no_set_server(7, 0x0800_0000_0102_0000, -22);
    c.no_set_server(7, 0x0800_0006_01ff_0000, -22);
    c.source_is(5, 0x123_0000_0000);
    c.server_is(7, 0x0900_0006_0102_0000);
}

fn last_rows(c: &mut Case) {
    c.servers(64);
    c.sources(64, 163);
    c.set_server(63, 163, 0x0600_0000_ffff_0000, 0x0600_0000_ffff_0000);
    c.set_source(63, 263, 0x405_0000_00a3);
    c.server_is(163, 0x0600_0000_ffff_0000);
    c.source_is(263, 0x405_0000_00a3);
    c.deliverable(263, 1);
    c.deliverable(262, 0);
    c.set_source(62, 262, 0x405_0000_00a2);
    c.deliverable(262, 0);
    c.set_server(0, 100, 0x0700_0000_ffff_0000, 0x0700_0000_ffff_0000);
    c.set_source(0, 200, 0x406_0000_0064);
    c.deliverable(200, 1);
}
