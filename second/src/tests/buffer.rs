//! PROTOCOLS.md, the store buffer.

use super::{bench_after, check_rows, lines, on_their_way};
use crate::protocol::Kind;

#[test]
fn the_example_over_bus_mesi() {
    let study = "store 0 10 41; load 1 10; load 0 10";
    assert_eq!(
        lines(4, study),
        ["E 0 S 41 . 00", "E 1 L 00 ! 00", "E 0 L 41 . 00"]
    );
    let bench = bench_after(4, study);
    assert_eq!(bench.image()[10], 0x00);
    assert_eq!(bench.protocol().entries(0), [(10, 0x41)]);

    let released = format!("{study}; release 0");
    assert_eq!(lines(4, &released)[3], "E 0 P -- . 00");
    let bench = bench_after(4, &released);
    assert_eq!(bench.image()[10], 0x41);
    assert!(bench.protocol().entries(0).is_empty());
}

const FULL: &str = "store 0 0 01; store 0 8 02; store 0 16 03; store 0 24 04";

#[test]
fn the_example_over_neat() {
    check_rows(
        3,
        &[
            ("store 0 0 01", "E 0 S 01 . 00"),
            ("store 0 8 02", "E 0 S 02 . 00"),
            ("store 0 16 03", "E 0 S 03 . 00"),
            ("store 0 24 04", "E 0 S 04 . 00"),
            ("store 0 32 05", "W 0 S -- . 00"),
            ("load 0 0", "R 0 L -- . 03"),
            ("move 0", "M - - -- . 00"),
            ("move 0", "M 0 S 05 . 00"),
            ("load 0 0", "E 0 L 01 . 00"),
            ("load 0 32", "E 0 L 05 . 00"),
            ("release 0", "W 0 P -- . 00"),
            ("move 1", "M - - -- . 00"),
            ("move 1", "M - - -- . 00"),
        ],
    );
}

#[test]
fn the_buffer_of_the_example() {
    let four = [(0, 1), (8, 2), (16, 3), (24, 4)];
    let next = [(8, 2), (16, 3), (24, 4), (32, 5)];
    let waits = format!("{FULL}; store 0 32 05");
    let stored = format!("{waits}; move 0; move 0");
    let releases = format!("{stored}; release 0");
    let goes_on = format!("{releases}; move 1; move 1");
    type Row<'a> = (&'a str, &'a [(u8, u8)], &'a [(u8, Kind)]);
    let rows: [Row; 5] = [
        (FULL, &four, &[]),
        (&waits, &four, &[(0, Kind::GetLine)]),
        (&stored, &next, &[]),
        (&releases, &next, &[(1, Kind::GetLine)]),
        (&goes_on, &next[1..], &[(2, Kind::GetLine)]),
    ];
    for (text, entries, messages) in rows {
        let bench = bench_after(3, text);
        assert_eq!(bench.protocol().entries(0), entries, "{text}");
        assert_eq!(on_their_way(&bench), messages, "{text}");
    }
}

#[test]
fn the_release_of_the_example_ends() {
    let moves = "move 1; move 1; move 2; move 2; move 3; move 3; move 4; move 4; \
                 move 0; move 1; move 2; move 3; move 4; move 8; move 8";
    let study = format!("{FULL}; store 0 32 05; move 0; move 0; release 0; {moves}");
    let lines = lines(3, &study);
    let (last, moved) = lines[8..].split_last().expect("there are moves");
    assert!(moved.iter().all(|line| line == "M - - -- . 00"));
    assert_eq!(last, "M 0 P -- . 00");
    let image = bench_after(3, &study).image();
    assert_eq!([0, 8, 16, 24, 32].map(|a: usize| image[a]), [1, 2, 3, 4, 5]);
}

#[test]
fn a_store_replaces_its_entry_in_its_position() {
    let bench = bench_after(4, &format!("{FULL}; store 0 8 99"));
    let expected = [(0, 1), (8, 0x99), (16, 3), (24, 4)];
    assert_eq!(bench.protocol().entries(0), expected);
    assert_eq!(bench.image(), [0; 64]);
}

#[test]
fn a_full_buffer_over_bus_mesi_ends_at_once() {
    let study = format!("{FULL}; store 0 32 05");
    assert_eq!(lines(4, &study)[4], "E 0 S 05 . 00");
    let bench = bench_after(4, &study);
    assert_eq!(
        bench.protocol().entries(0),
        [(8, 2), (16, 3), (24, 4), (32, 5)]
    );
    assert_eq!(bench.image()[0], 1);
}

#[test]
fn an_acquire_and_an_evict_leave_the_entries() {
    let bench = bench_after(4, &format!("{FULL}; acquire 0; evict 0 0"));
    assert_eq!(bench.protocol().entries(0).len(), 4);
}
