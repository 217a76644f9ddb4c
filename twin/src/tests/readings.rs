//! Readings of document 01 that are easy to get wrong. The numbers are those of docs/DECISIONS.md.

use super::*;
use crate::table::State;

#[test]
fn a16_an_unknown_type_of_length_0_is_finished() {
    let mut bench = bench(1);
    let row = bench.connect(0);
    let said = bench.bytes(row, "03FC 0007 00000000");
    assert_eq!(said, entries(&[(row, 1, &nack(0x01))]));
    assert_eq!(bench.meters(0), (8, 8, 0));
    // the next byte begins a header
    let said = bench.asks(row, 0x0E00);
    assert_eq!(said, entries(&[(row, 1, &response(0x0E00, 0x10))]));
}

#[test]
fn a17_one_message_a_call() {
    let mut bench = bench(1);
    let row = bench.connect(0);
    let two = "03FC 0005 00000007 0E00 00 00000000 03FC 0008 00000002 0E00";
    assert_eq!(bench.some_of(row, two), (15, entries(&[(row, 1, &response(0x0E00, 0x10))])));
}

#[test]
fn a19_a_wrong_header_ends_the_call_and_a24_so_does_the_end_of_a_skip() {
    let mut bench = bench(1);
    let row = bench.connect(0);
    let (taken, said) = bench.some_of(row, "03FC 4001 00000002 AAAA 03FC");
    assert_eq!((taken, said), (8, entries(&[(row, 1, &nack(0x01))])));
    assert_eq!(bench.some_of(row, "AAAA 03FC"), (2, NOTHING.to_string()));
    assert_eq!(bench.meters(0), (10, 10, 0));
}

#[test]
fn a20_0005_of_8_9_or_10_bytes_closes() {
    let mut bench = bench(1);
    for length in [8, 9, 10] {
        let row = bench.connect(0);
        let said = bench.bytes(row, &format!("03FC 0005 {length:08x}"));
        assert_eq!(said, entries(&[(row, 1, &nack(0x04)), (row, 2, "")]));
    }
    let row = bench.connect(0);
    let said = bench.bytes(row, "03FC 0005 0000000B 0E00 01 00000000 00000000");
    assert_eq!(said, entries(&[(row, 1, &response(0x0E00, 0x10))]));
}

#[test]
fn a21_too_long_comes_before_wrong_length() {
    let mut bench = bench(1);
    let row = bench.connect(0);
    for message_type in ["0005", "0008", "0000"] {
        let said = bench.bytes(row, &format!("03FC {message_type} 00000801"));
        assert_eq!(said, entries(&[(row, 1, &nack(0x02))]));
        assert_eq!(bench.bytes(row, &"00".repeat(2049)), NOTHING);
    }
    assert_eq!(bench.meters(0), (3 * 2057, 3 * 2057, 0));
}

#[test]
fn a22_a_0000_of_a_wrong_length_closes() {
    let mut bench = bench(1);
    let row = bench.connect(0);
    assert_eq!(bench.bytes(row, "03FC 0000 00000001 00"), NOTHING);
    let said = bench.bytes(row, "03FC 0000 00000002");
    assert_eq!(said, entries(&[(row, 1, &nack(0x04)), (row, 2, "")]));
    assert_eq!(bench.meters(0), (17, 17, 0));
}

#[test]
fn a28_6_before_7_and_an_empty_call_is_refused_too() {
    let mut bench = bench(1);
    let (_, b) = (bench.active(0, 0x0E00), bench.connect(0));
    bench.asks(b, 0x0E00);
    assert_eq!(bench.refused(Call::Bytes(RowNo(b), &[])), 7);
    assert_eq!(bench.refused(Call::Bytes(RowNo(2), &[])), 6);
    assert_eq!(bench.refused(Call::Bytes(RowNo(200), &[])), 6);
}

#[test]
fn a29_what_an_active_row_is_told() {
    for (address, kind, code) in [(0x0F00, 0, 0x00), (0x0E00, 2, 0x06), (0x0E01, 0, 0x02)] {
        let mut bench = bench(2);
        let row = bench.active(0, 0x0E00);
        let said = bench.bytes(row, &format!("03FC 0005 00000007 {address:04x} {kind:02x} 00000000"));
        assert_eq!(said, entries(&[(row, 1, &response(address, code)), (row, 2, "")]));
    }
    let mut bench = bench(2);
    let row = bench.active(0, 0x0E00);
    assert_eq!(bench.asks(row, 0x0E00), entries(&[(row, 1, &response(0x0E00, 0x10))]));
}

#[test]
fn a31_a_request_that_needs_no_check_passes_the_line() {
    let mut bench = bench(2);
    let (a, b, c) = (bench.active(0, 0x0E00), bench.connect(0), bench.connect(0));
    assert_eq!(bench.asks(b, 0x0E00), entries(&[(a, 1, ALIVE)]));
    assert_eq!(bench.asks(c, 0x0E01), entries(&[(c, 1, &response(0x0E01, 0x10))]));
}

#[test]
fn a33_a_new_head_asks_again() {
    let mut bench = bench(2);
    let (a, b, c) = (bench.active(0, 0x0E00), bench.connect(0), bench.connect(0));
    bench.asks(b, 0x0E00);
    bench.asks(c, 0x0E00);
    bench.quiet(30);
    let said = bench.alive(a, 0x0E00);
    assert_eq!(said, entries(&[(b, 1, &response(0x0E00, 0x03)), (b, 2, ""), (a, 1, ALIVE)]));
    bench.quiet(49);
    assert_eq!(bench.tick(), entries(&[(a, 2, ""), (c, 1, &response(0x0E00, 0x10))]));
}

#[test]
fn a33_so_does_one_whose_head_goes_away() {
    let mut bench = bench(2);
    let (a, b, c) = (bench.active(0, 0x0E00), bench.connect(0), bench.connect(0));
    bench.asks(b, 0x0E00);
    bench.asks(c, 0x0E00);
    bench.quiet(30);
    assert_eq!(bench.peer_closed(b), entries(&[(b, 2, ""), (a, 1, ALIVE)]));
    assert_eq!(bench.farm(0).clock, 0);
    assert_eq!(bench.farm(0).line, [usize::from(c)]);
}

#[test]
fn a35_only_an_asked_row_marks_and_only_with_its_own_address() {
    let mut bench = bench(3);
    let (a, b, c) = (bench.active(0, 0x0E00), bench.active(0, 0x0E01), bench.connect(0));
    assert_eq!(bench.asks(c, 0x0E00), entries(&[(a, 1, ALIVE)]));
    assert_eq!(bench.alive(b, 0x0E01), NOTHING);
    assert_eq!(bench.alive(b, 0x0E00), NOTHING);
    assert_eq!(bench.alive(a, 0x0E01), NOTHING);
    assert!(bench.farm(0).marks.iter().all(|mark| !mark));
    let said = bench.alive(a, 0x0E00);
    assert_eq!(said, entries(&[(c, 1, &response(0x0E00, 0x03)), (c, 2, "")]));
}

#[test]
fn a38_at_50_only_those_that_did_not_answer_close() {
    let mut bench = bench(2);
    let (a, b, c) = (bench.active(0, 0x0E00), bench.active(0, 0x0E01), bench.connect(0));
    assert_eq!(bench.asks(c, 0x0E02), entries(&[(a, 1, ALIVE), (b, 1, ALIVE)]));
    assert_eq!(bench.alive(a, 0x0E00), NOTHING);
    bench.quiet(49);
    assert_eq!(bench.tick(), entries(&[(b, 2, ""), (c, 1, &response(0x0E02, 0x10))]));
}

#[test]
fn a39_an_idle_limit_in_the_tick_that_brings_the_clock_to_50() {
    let mut bench = bench(2);
    let (a, b, c) = (bench.active(0, 0x0E00), bench.active(0, 0x0E01), bench.connect(0));
    bench.asks(c, 0x0E02);
    bench.farm(0).rows[0].state = State::Active { tester: 0x0E00, idle: 29_999 };
    bench.farm(0).clock = 49;
    assert_eq!(bench.tick(), entries(&[(a, 2, ""), (c, 1, &response(0x0E02, 0x10))]));
    assert!(bench.farm(0).rows[usize::from(b)].is_open());
}

#[test]
fn a40_one_settling_may_answer_many() {
    let mut bench = bench(4);
    let (a, b) = (bench.active(0, 0x0E00), bench.active(0, 0x0E01));
    let (c, d) = (bench.connect(0), bench.connect(0));
    bench.asks(c, 0x0E00);
    bench.asks(d, 0x0E01);
    // d's address is free, and d still waits
    assert_eq!(bench.peer_closed(b), entries(&[(b, 2, "")]));
    let said = bench.peer_closed(a);
    let (to_c, to_d) = (response(0x0E00, 0x10), response(0x0E01, 0x10));
    assert_eq!(said, entries(&[(a, 2, ""), (c, 1, &to_c), (d, 1, &to_d)]));
}

#[test]
fn a43_an_empty_call_leaves_the_idle_count_and_one_byte_does_not() {
    let mut bench = bench(1);
    let row = bench.active(0, 0x0E00);
    bench.quiet(3);
    bench.bytes(row, "");
    assert_eq!(bench.farm(0).rows[0].state, State::Active { tester: 0x0E00, idle: 3 });
    bench.bytes(row, "03");
    assert_eq!(bench.farm(0).rows[0].state, State::Active { tester: 0x0E00, idle: 0 });
}

#[test]
fn a45_a_fresh_row_ages_whatever_it_sends_and_a_waiting_one_does_not() {
    let mut bench = bench(1);
    let row = bench.connect(0);
    bench.quiet(150);
    bench.bytes(row, "03FC 0008 00000002 0E00 ");
    bench.bytes(row, "03FC 0008 00000002 0E");
    bench.quiet(49);
    assert_eq!(bench.tick(), entries(&[(row, 2, "")]));
    assert_eq!(bench.meters(0), (19, 10, 9));
    // three that ask for one address: the last has its answer at 150, long after age 200
    let mut bench = super::bench(3);
    let (a, b) = (bench.active(0, 0x0E00), bench.connect(0));
    let (c, d) = (bench.connect(0), bench.connect(0));
    bench.quiet(120);
    for row in [b, c, d] {
        bench.asks(row, 0x0E00);
    }
    for (old, new) in [(a, b), (b, c)] {
        bench.quiet(49);
        let said = bench.tick();
        assert_eq!(said, entries(&[(old, 2, ""), (new, 1, &response(0x0E00, 0x10)), (new, 1, ALIVE)]));
    }
    bench.quiet(49);
    assert_eq!(bench.tick(), entries(&[(c, 2, ""), (d, 1, &response(0x0E00, 0x10))]));
}

#[test]
fn idle_30000_closes() {
    let mut bench = bench(1);
    let row = bench.active(0, 0x0E00);
    bench.quiet(29_999);
    assert_eq!(bench.tick(), entries(&[(row, 2, "")]));
}

#[test]
fn a50_own_entries_come_first() {
    let mut bench = bench(1);
    let (a, b) = (bench.active(0, 0x0E00), bench.connect(0));
    bench.asks(b, 0x0E01);
    let said = bench.asks(a, 0x0E02);
    let (to_a, to_b) = (response(0x0E02, 0x02), response(0x0E01, 0x10));
    assert_eq!(said, entries(&[(a, 1, &to_a), (a, 2, ""), (b, 1, &to_b)]));
}

#[test]
fn a51_peer_closed_settles_the_line() {
    let mut bench = bench(1);
    let (a, b) = (bench.active(0, 0x0E00), bench.connect(0));
    bench.asks(b, 0x0E01);
    assert_eq!(bench.peer_closed(a), entries(&[(a, 2, ""), (b, 1, &response(0x0E01, 0x10))]));
}

#[test]
fn a52_link_lost_only_closes() {
    let mut bench = bench(2);
    let (a, b, c) = (bench.active(0, 0x0E00), bench.connect(0), bench.connect(0));
    bench.asks(b, 0x0E00);
    bench.asks(c, 0x0E00);
    let (_, said) = bench.call(Call::LinkLost(FarmNo(0)));
    assert_eq!(said, entries(&[(a, 2, ""), (b, 2, ""), (c, 2, "")]));
    bench.quiet(60);
}

#[test]
fn all_places_in_use_is_counted_in_one_farm() {
    let mut bench = bench(1);
    bench.active(0, 0x0E00);
    bench.active(1, 0x0F00);
}

#[test]
fn a61_to_a69_messages_and_meters() {
    let mut bench = bench(2);
    let row = bench.active(0, 0x0E00);
    for (target, code) in [(0x1011, 0x06), (0x1020, 0x03), (0x1000, 0x03)] {
        let said = bench.bytes(row, &format!("03FC 8001 00000005 0E00 {target:04x} 00"));
        let reply = format!("03FC 8003 00000005 {target:04x} 0E00 {code:02x}");
        assert_eq!(said, entries(&[(row, 1, &reply)]));
    }
    let said = bench.bytes(row, "03FC 8001 00000005 0E01 1010 00");
    assert_eq!(said, entries(&[(row, 1, "03FC 8003 00000005 1010 0E01 02"), (row, 2, "")]));
    assert_eq!(bench.meters(0), (67, 67, 0));
    let fresh = bench.connect(0);
    let said = bench.bytes(fresh, "03FC 8001 00000005 0E00 1010 00");
    assert_eq!(said, entries(&[(fresh, 1, "03FC 8003 00000005 1010 0E00 02"), (fresh, 2, "")]));
}

#[test]
fn a66_controller_messages() {
    let mut bench = bench(2);
    let (a, b) = (bench.active(0, 0x0E00), bench.connect(0));
    bench.asks(b, 0x0E01);
    let long = [7; 2045];
    let call = |farm, controller, tester, length| Call::Controller {
        farm: FarmNo(farm),
        controller,
        tester,
        data: &long[..length],
    };
    assert_eq!(bench.refused(call(2, 0x1010, 0x0E00, 0)), 5);
    assert_eq!(bench.refused(call(0, 0x1020, 0x0E00, 0)), 9);
    assert_eq!(bench.refused(call(0, 0x1010, 0x0E00, 2045)), 9);
    assert_eq!(bench.refused(call(0, 0x1020, 0x0E00, 1)), 10);
    assert_eq!(bench.refused(call(0, 0x1010, 0x0E02, 1)), 10);
    assert_eq!(bench.refused(call(1, 0x1020, 0x0E00, 1)), 10);
    // a controller that is not reachable may speak
    let (answer, said) = bench.call(call(0, 0x1011, 0x0E00, 2));
    assert_eq!((answer.number, answer.row), (0, 255));
    assert_eq!(said, entries(&[(a, 1, "03FC 8001 00000006 1011 0E00 0707")]));
    assert_eq!(bench.call(call(0, 0x1010, 0x0E00, 2044)).0.number, 0);
}
