//! Part 14: lent bytes, set-up and registering (§14.1 to §14.4, §14.7, §14.8).

use super::case::{with, Case};
use crate::xics::{each_kind, Call};

pub const CASES: &[(&str, fn(&mut Case))] = &[
    ("§14.1, §14.7 a server's number is below 2^32, else -22", server_bound),
    ("§14.1, §14.8 a source's number is below 2^20, else -22", source_bound),
    ("§14.8 the number of a source's server is below 2^32, else -22", its_server_bound),
    ("§14.1 0 is a number of either", zero),
    ("§14.1, §14.7 64 servers are taken, a 65th is -12", server_limit),
    ("§14.1, §14.8 64 sources are taken, a 65th is -12", source_limit),
    ("§14.1 sources and servers are counted apart", counted_apart),
    ("§14.1 one number may name a source and a server", one_number),
    ("§14.1 nothing unregisters", nothing_unregisters),
    ("§14.1 a source's number names no server, and a server's no source", other_kind),
    ("§14.2 rows stand in the order of registering", order_of_rows),
    ("§14.2 numbers and words are little endian", little_endian),
    ("§14.2 what lies behind the last row is not read", not_read),
    ("§14.2, §14.12 bytes that are all 0 are an XICS without a source or a server", zeros),
    ("§14.3 a wrong length is -14 from every call", wrong_lengths),
    ("§14.3 the length comes before soundness", length_before_sound),
    ("§14.3 soundness comes before a value's width and before all else", sound_before_all),
    ("§14.4, §14.14 set-up does not look at what the bytes hold", set_up_of_any),
    ("§14.4 set-up takes away what was registered", set_up_again),
    ("§14.4, §14.14 a wrong length is -14 from set-up, whatever the bytes hold", set_up_length),
    ("§14.7, §14.15 a fresh server's word", fresh_server),
    ("§14.8, §14.15 a fresh source's word", fresh_source),
    ("§14.7 a number from 2^32 on comes before the limit", server_bound_before_limit),
    ("§14.7 a registered server comes before the limit", server_repeated_before_limit),
    ("§14.7 a server is registered once", server_repeated),
    ("§14.8 a source is registered once", source_repeated),
    ("§14.8 a number that is too large comes before all other faults", source_bound_first),
    ("§14.8 a server from 2^32 on comes before all other faults", its_server_bound_first),
    ("§14.8 a registered source comes before a missing server and the limit", source_repeated_first),
    ("§14.8 a missing server comes before the limit", missing_before_limit),
    ("§14.8 a source needs a registered server", missing_server),
    ("§14.15 registering leaves every other word", others_stand),
    ("§14.13 what a call does follows from the lent bytes alone: two XICSs take turns", in_turns),
];

const PAST_2_32: [u64; 6] = [1 << 32, (1 << 32) + 1, (1 << 32) + 7, 1 << 52, 1 << 63, u64::MAX];
const PAST_2_20: [u64; 7] = [1 << 20, (1 << 20) + 1, (1 << 20) + 5, 1 << 24, 1 << 32, (1 << 63) + 5, u64::MAX];

fn server_bound(c: &mut Case) {
    c.server(0xffff_ffff);
    c.server(0xffff_fffe);
    c.server(0x8000_0000);
    PAST_2_32.into_iter().for_each(|server| c.no_server(server, -22));
    c.server_is(0xffff_ffff, 0xffff_0000);
    c.no_get_server(1 << 32, -2);
}

fn source_bound(c: &mut Case) {
    c.server(7);
    c.source(0xf_ffff, 7);
    c.source(0xf_fffe, 7);
    c.source(0x8_0000, 7);
    PAST_2_20.into_iter().for_each(|source| c.no_source(source, 7, -22));
    c.source_is(0xf_ffff, 0x2ff_0000_0007);
    c.no_get_source(1 << 20, -2);
}

fn its_server_bound(c: &mut Case) {
    c.server(7);
    c.server(0xffff_ffff);
    PAST_2_32.into_iter().for_each(|server| c.no_source(5, server, -22));
    c.source(5, 0xffff_ffff);
    c.source_is(5, 0x2ff_ffff_ffff);
}

fn zero(c: &mut Case) {
    c.server(0);
    c.source(0, 0);
    c.server_is(0, 0xffff_0000);
    c.source_is(0, 0x2ff_0000_0000);
    c.deliverable(0, 0);
    c.no_server(0, -17);
    c.no_source(0, 0, -17);
}

fn server_limit(c: &mut Case) {
    c.servers(64);
    c.no_server(164, -12);
    c.no_server(0, -12);
    c.no_server(0xffff_ffff, -12);
    c.server_is(100, 0xffff_0000);
    c.server_is(163, 0xffff_0000);
    c.no_get_server(164, -2);
}

fn source_limit(c: &mut Case) {
    c.server(7);
    c.sources(64, 7);
    c.no_source(264, 7, -12);
    c.no_source(0, 7, -12);
    c.no_source(0xf_ffff, 7, -12);
    c.source_is(200, 0x2ff_0000_0007);
    c.source_is(263, 0x2ff_0000_0007);
    c.no_get_source(264, -2);
}

fn counted_apart(c: &mut Case) {
    c.servers(64);
    c.sources(64, 163);
    c.no_server(99, -12);
    c.no_source(99, 100, -12);
    c.setup();
    c.server(7);
    c.sources(64, 7);
    c.servers(63);
    c.no_server(99, -12);
}

fn one_number(c: &mut Case) {
    c.server(5);
    c.server(6);
    c.source(5, 6);
    c.source(6, 5);
    c.set_source(0, 5, 0x403_0000_0006);
    c.set_server(0, 5, 0x0900_0005_fe11_0000, 0x0900_0005_fe11_0000);
    c.source_is(5, 0x403_0000_0006);
    c.server_is(5, 0x0900_0005_fe11_0000);
    c.source_is(6, 0x2ff_0000_0005);
    c.server_is(6, 0xffff_0000);
}

fn nothing_unregisters(c: &mut Case) {
    c.server(7);
    c.server(8);
    c.source(5, 7);
    c.set_source(0, 5, 8);
    c.set_server(0, 7, 0xff_0000, 0xff_0000);
    c.deliverable(5, 0);
    c.no_server(7, -17);
    c.no_server(8, -17);
    c.no_source(5, 8, -17);
    c.source_is(5, 8);
    c.server_is(7, 0xff_0000);
}

fn other_kind(c: &mut Case) {
    c.server(7);
    c.source(5, 7);
    c.no_get_source(7, -2);
    c.no_get_server(5, -2);
    c.no_set_source(7, 7, -2);
    c.no_set_server(5, 0xff_0000, -2);
    c.deliverable(7, -2);
    c.no_source(6, 5, -2);
    c.server(5);
    c.source(7, 5);
}

fn order_of_rows(c: &mut Case) {
    c.server(9);
    c.source(8, 9);
    c.server(3);
    c.server(0xffff_ffff);
    c.source(1, 3);
    c.source(0xf_ffff, 9);
    c.server(0);
    let rows = [(0, 4), (8, 3), (16, 9), (32, 3), (48, 0xffff_ffff), (64, 0), (1040, 8), (1056, 1), (1072, 0xf_ffff)];
    let words = [(24, 0xffff_0000), (72, 0xffff_0000), (1048, 0x2ff_0000_0009), (1064, 0x2ff_0000_0003)];
    let bytes = c.bytes();
    if with(&with(&bytes, &rows), &words) != bytes {
        c.notes.push("the rows do not stand in the order of registering".into());
    }
    c.set_source(2, 0xf_ffff, 0x105_ffff_ffff);
    c.set_server(1, 3, 0x0100_0000_00ff_0000, 0x0100_0000_00ff_0000);
}

fn little_endian(c: &mut Case) {
    c.server(0x0403_0201);
    c.source(0x3_0201, 0x0403_0201);
    let value = [0x01, 0x02, 0x03, 0x04, 0x05, 0x07, 0x00, 0x00];
    c.make(Call::SetSource { source: 0x3_0201 }, &value, 0, &[(1048, 0x0705_0403_0201)], &value);
    let bytes = c.bytes();
    let row = [&[1, 2, 3, 4, 0, 0, 0, 0][..], &[0, 0, 0xff, 0xff, 0, 0, 0, 0]].concat();
    if bytes[..9] != [1, 0, 0, 0, 0, 0, 0, 0, 1] || bytes[16..32] != row || bytes[1048..1056] != value {
        c.notes.push("a number is not little endian".into());
    }
    c.make(Call::GetSource { source: 0x3_0201 }, &[0; 8], 0, &[], &value);
    c.make(Call::GetServer { server: 0x0403_0201 }, &[1; 8], 0, &[], &[0, 0, 0xff, 0xff, 0, 0, 0, 0]);
}

/// Behind the last rows stand numbers that would be repeated or too large, words that no set takes, and a server that a
/// source's word would name.
fn not_read(c: &mut Case) {
    c.server(7);
    c.source(5, 7);
    c.write(&[(32, 7), (40, u64::MAX), (48, u64::MAX), (64, 9), (72, 0xffff_0001), (1032, u64::MAX)]);
    c.write(&[(1056, 5), (1064, u64::MAX), (1072, 1 << 20), (1088, 6), (1096, 0x2ff_0000_0009), (2056, u64::MAX)]);
    c.source_is(5, 0x2ff_0000_0007);
    c.no_get_source(6, -2);
    c.no_get_server(9, -2);
    c.no_set_source(5, 9, -22);
    c.no_source(6, 9, -2);
    c.deliverable(6, -2);
    c.server(9);
    c.source(6, 9);
}

fn zeros(c: &mut Case) {
    c.lend(&[0; 2064]);
    c.no_get_source(0, -2);
    c.no_get_server(0, -2);
    c.deliverable(0, -2);
    c.no_source(0, 0, -2);
    c.server(0);
    c.source(0, 0);
}

/// Every call, on bytes that hold a server and a source, cut or with more behind them.
fn wrong_lengths(c: &mut Case) {
    c.server(7);
    c.source(5, 7);
    let bytes = c.bytes();
    for length in [0, 1, 8, 16, 1040, 2048, 2056, 2063, 2065, 2072, 2080, 4128, 11_400] {
        let mut other = bytes.clone();
        other.resize(length, 0);
        c.lend(&other);
        all_refused(c, -14);
    }
}

fn all_refused(c: &mut Case, want: i64) {
    each_kind(7, 5).into_iter().for_each(|(call, value)| c.refuse(call, &value, want));
}

fn length_before_sound(c: &mut Case) {
    for length in [0, 2063, 2065, 11_400] {
        c.lend(&vec![0xff; length]);
        all_refused(c, -14);
    }
}

fn sound_before_all(c: &mut Case) {
    c.server(7);
    c.source(5, 7);
    c.write(&[(24, 0xffff_0001)]);
    all_refused(c, -22);
    for width in [0, 4, 7, 9, 16] {
        c.refuse(Call::GetSource { source: 5 }, &vec![0xee; width], -22);
        c.refuse(Call::SetSource { source: 6 }, &vec![0xee; width], -22);
        c.refuse(Call::GetServer { server: 7 }, &vec![0xee; width], -22);
        c.refuse(Call::SetServer { server: 8 }, &vec![0xee; width], -22);
    }
    c.no_server(7, -22);
    c.no_source(5, 9, -22);
    c.no_get_server(9, -22);
    c.deliverable(9, -22);
}

/// Two numbers are written and no other byte (§14.2): with these nothing behind them is a row.
fn set_up_of_any(c: &mut Case) {
    for byte in [0, 1, 0x40, 0x5a, 0x80, 0xff] {
        c.lend(&[byte; 2064]);
        c.setup();
        c.no_get_server(0, -2);
        c.no_get_source(0, -2);
        c.server(7);
        c.source(5, 7);
    }
}

fn set_up_again(c: &mut Case) {
    c.servers(64);
    c.sources(64, 100);
    c.setup();
    c.no_get_server(100, -2);
    c.no_get_source(200, -2);
    c.deliverable(200, -2);
    c.no_source(200, 100, -2);
    c.setup();
    c.server(101);
    c.source(200, 101);
    c.no_get_server(100, -2);
}

fn set_up_length(c: &mut Case) {
    for length in [0, 1, 16, 2063, 2065, 4128, 11_400] {
        c.lend(&vec![0xff; length]);
        c.refuse(Call::Setup, &[], -14);
        c.lend(&vec![0; length]);
        c.refuse(Call::Setup, &[], -14);
    }
}

/// Both priorities that are pending 255, source number 0, current priority 0, bits 15:0 all 0.
fn fresh_server(c: &mut Case) {
    for server in [7, 0, 0xffff_ffff, 1 << 20] {
        c.server(server);
        c.make(Call::GetServer { server }, &[0xee; 8], 0, &[], &[0, 0, 0xff, 0xff, 0, 0, 0, 0]);
    }
}

/// The server as destination, priority 255, masked; not level, not pending, and nothing above.
fn fresh_source(c: &mut Case) {
    c.server(0);
    c.server(0xffff_ffff);
    c.server(0x1234_5678);
    c.source(5, 0);
    c.source(6, 0xffff_ffff);
    c.source(7, 0x1234_5678);
    c.make(Call::GetSource { source: 5 }, &[0xee; 8], 0, &[], &[0, 0, 0, 0, 0xff, 2, 0, 0]);
    c.make(Call::GetSource { source: 6 }, &[0xee; 8], 0, &[], &[0xff, 0xff, 0xff, 0xff, 0xff, 2, 0, 0]);
    c.make(Call::GetSource { source: 7 }, &[0xee; 8], 0, &[], &[0x78, 0x56, 0x34, 0x12, 0xff, 2, 0, 0]);
}

fn server_bound_before_limit(c: &mut Case) {
    c.servers(64);
    PAST_2_32.into_iter().for_each(|server| c.no_server(server, -22));
    c.no_server((1 << 32) + 100, -22);
}

fn server_repeated_before_limit(c: &mut Case) {
    c.servers(64);
    c.no_server(100, -17);
    c.no_server(163, -17);
    c.no_server(164, -12);
}

fn server_repeated(c: &mut Case) {
    c.server(7);
    c.no_server(7, -17);
    c.server(8);
    c.no_server(7, -17);
    c.no_server(8, -17);
    c.set_server(0, 7, 0x0500_0000_00ff_0000, 0x0500_0000_00ff_0000);
    c.no_server(7, -17);
    c.server_is(7, 0x0500_0000_00ff_0000);
}

fn source_repeated(c: &mut Case) {
    c.server(7);
    c.server(8);
    c.source(5, 7);
    c.no_source(5, 7, -17);
    c.no_source(5, 8, -17);
    c.source(6, 7);
    c.no_source(5, 7, -17);
    c.no_source(6, 7, -17);
    c.set_source(0, 5, 0x404_0000_0008);
    c.no_source(5, 7, -17);
    c.source_is(5, 0x404_0000_0008);
}

/// With a server that is not there, with a server from 2^32 on, and with 64 sources.
fn source_bound_first(c: &mut Case) {
    c.server(7);
    c.no_source(1 << 20, 9, -22);
    c.no_source(1 << 20, 1 << 32, -22);
    c.sources(64, 7);
    c.no_source(1 << 20, 7, -22);
    c.no_source((1 << 20) + 200, 9, -22);
}

/// With a source that is registered, with one that is not, and with 64 sources.
fn its_server_bound_first(c: &mut Case) {
    c.server(7);
    c.source(5, 7);
    c.no_source(5, 1 << 32, -22);
    c.no_source(5, (1 << 32) + 7, -22);
    c.no_source(6, (1 << 32) + 7, -22);
    c.sources(63, 7);
    c.no_source(6, 1 << 32, -22);
    c.no_source(5, 1 << 32, -22);
}

fn source_repeated_first(c: &mut Case) {
    c.server(7);
    c.source(5, 7);
    c.no_source(5, 9, -17);
    c.sources(63, 7);
    c.no_source(5, 7, -17);
    c.no_source(5, 9, -17);
    c.no_source(262, 7, -17);
}

fn missing_before_limit(c: &mut Case) {
    c.server(7);
    c.sources(64, 7);
    c.no_source(5, 9, -2);
    c.no_source(5, 7, -12);
}

fn missing_server(c: &mut Case) {
    c.no_source(5, 7, -2);
    c.no_source(0, 0, -2);
    c.no_source(5, 0xffff_ffff, -2);
    c.server(7);
    c.no_source(5, 6, -2);
    c.no_source(5, 0x8000_0007, -2);
    c.source(5, 7);
}

fn others_stand(c: &mut Case) {
    c.server(7);
    c.source(5, 7);
    c.set_server(0, 7, 0x0300_0005_1122_0000, 0x0300_0005_1122_0000);
    c.set_source(0, 5, 0x501_0000_0007);
    c.server(8);
    c.source(6, 8);
    c.server_is(7, 0x0300_0005_1122_0000);
    c.source_is(5, 0x501_0000_0007);
    c.server_is(8, 0xffff_0000);
    c.source_is(6, 0x2ff_0000_0008);
}

/// After each call the other one's bytes are lent. `server` and `source` count rows for one XICS, so that the second one's
/// are written out.
fn in_turns(c: &mut Case) {
    let mut other = with(&[0x77; 2064], &[(0, 0), (8, 0)]);
    let turn = |c: &mut Case, other: &mut Vec<u8>| {
        let bytes = c.bytes();
        c.lend(other);
        *other = bytes;
    };
    c.server(7);
    turn(c, &mut other);
    c.no_get_server(7, -2);
    c.make(Call::AddServer { server: 9 }, &[], 0, &[(0, 1), (16, 9), (24, 0xffff_0000)], &[]);
    turn(c, &mut other);
    c.source(5, 7);
    turn(c, &mut other);
    c.no_get_source(5, -2);
    let puts = [(8, 1), (1040, 6), (1048, 0x2ff_0000_0009)];
    c.make(Call::AddSource { source: 6, server: 9 }, &[], 0, &puts, &[]);
    turn(c, &mut other);
    c.no_get_source(6, -2);
    c.source_is(5, 0x2ff_0000_0007);
}
