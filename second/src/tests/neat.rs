//! PROTOCOLS.md, Neat.

use super::{bench_after, check_rows, last_line, lines, on_their_way, steps};
use crate::neat::Neat;
use crate::protocol::{self, Kind};

const STORED: &str = "store 0 10 41; move 1; move 1";

fn due_after(text: &str) -> usize {
    let mut neat = Neat::new();
    for step in steps(text) {
        protocol::step(&mut neat, step);
    }
    neat.due()
}

#[test]
fn the_example_of_two_cores() {
    check_rows(
        1,
        &[
            ("store 0 10 41", "W 0 S -- . 00"),
            ("move 1", "M - - -- . 00"),
            ("move 1", "M 0 S 41 . 00"),
            ("release 0", "W 0 P -- . 00"),
            ("move 8", "M - - -- . 00"),
            ("move 8", "R - - -- . 04"),
            ("move 1", "M - - -- . 00"),
            ("move 8", "M 0 P -- . 00"),
            ("acquire 1", "W 1 A -- . 00"),
            ("move 17", "M - - -- . 00"),
            ("move 17", "M 1 A -- . 00"),
            ("load 1 10", "W 1 L -- . 00"),
            ("move 10", "M - - -- . 00"),
            ("move 10", "M 1 L 41 . 00"),
        ],
    );
}

#[test]
fn the_messages_of_the_example() {
    for (text, expected) in [
        ("store 0 10 41", vec![(1, Kind::GetLine)]),
        ("store 0 10 41; move 1", vec![(1, Kind::Data)]),
        (STORED, vec![]),
        (
            "store 0 10 41; move 1; move 1; release 0",
            vec![(1, Kind::Commit), (8, Kind::Close)],
        ),
        (
            "store 0 10 41; move 1; move 1; release 0; move 8",
            vec![(1, Kind::Commit)],
        ),
        (
            "store 0 10 41; move 1; move 1; release 0; move 8; move 1",
            vec![(8, Kind::PutAllAck)],
        ),
        ("acquire 1", vec![(17, Kind::Close)]),
        ("acquire 1; move 17", vec![(17, Kind::PutAllAck)]),
        ("load 1 10", vec![(10, Kind::GetLine)]),
    ] {
        assert_eq!(on_their_way(&bench_after(1, text)), expected, "{text}");
    }
}

#[test]
fn a_getline_is_held_back() {
    check_rows(
        1,
        &[
            ("store 0 10 41", "W 0 S -- . 00"),
            ("move 1", "M - - -- . 00"),
            ("move 1", "M 0 S 41 . 00"),
            ("evict 0 1", "E 0 X -- . 00"),
            ("load 0 10", "W 0 L -- . 00"),
            ("move 1", "M - - -- . 00"),
            ("move 1", "M - - -- . 00"),
            ("move 1", "M - - -- . 00"),
            ("move 1", "M 0 L 41 . 00"),
        ],
    );
    let held = format!("{STORED}; evict 0 1; load 0 10");
    assert_eq!(due_after(&held), 2 + 2);
    let followed = format!("{held}; move 1; move 1");
    assert_eq!(
        on_their_way(&bench_after(1, &followed)),
        [(1, Kind::GetLine)]
    );
}

#[test]
fn a_release_waits_for_puts() {
    let begun = format!("{STORED}; evict 0 1; release 0");
    assert_eq!(
        on_their_way(&bench_after(1, &begun)),
        [(1, Kind::Put), (8, Kind::Close)]
    );
    for (moves, last) in [
        ("move 8; move 8; move 1; move 1", Kind::PutAck),
        ("move 1; move 1; move 8; move 8", Kind::PutAllAck),
    ] {
        let study = format!("{begun}; {moves}");
        let lines = lines(1, &study);
        let moved = ["M - - -- . 00"; 3];
        assert_eq!(lines[5..8], moved, "{last:?}");
        assert_eq!(lines[8], "M 0 P -- . 00", "{last:?}");
    }
}

#[test]
fn known_studies() {
    assert_eq!(
        lines(1, STORED),
        ["W 0 S -- . 00", "M - - -- . 00", "M 0 S 41 . 00"]
    );
    let study = format!("{STORED}; load 1 10; move 10; move 10");
    assert_eq!(last_line(1, &study), "M 1 L 00 ! 00");
    assert_eq!(
        lines(1, "release 0; move 8; move 8"),
        ["W 0 P -- . 00", "M - - -- . 00", "M 0 P -- . 00"]
    );
}

#[test]
fn eight_dirty_lines_are_due_18() {
    let mut study: Vec<String> = (0..8)
        .map(|line| format!("store 0 {} 41; move {line}; move {line}", line * 8))
        .collect();
    study.push("release 0".into());
    assert_eq!(due_after(&study.join(";")), 18);
    assert_eq!(Neat::REACH, 18);
}

#[test]
fn data_on_its_way_may_be_old() {
    let study = "load 1 10; move 10; store 0 10 41; move 1; move 1; \
                 release 0; move 1; move 8; move 8; move 10";
    assert_eq!(last_line(1, study), "M 1 L 00 ! 00");
}

#[test]
fn a_write_back_has_the_written_bytes_alone() {
    // Both cores write to line 1, at offsets 2 and 3.
    let study = "store 0 10 41; store 1 11 42; move 1; move 1; move 10; move 10; \
                 release 0; move 1; move 8; move 8; release 1; move 10; move 17; move 17";
    let bench = bench_after(1, study);
    assert_eq!(bench.image()[10..12], [0x41, 0x42]);
}
