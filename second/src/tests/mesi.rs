//! PROTOCOLS.md, bus MESI.

use super::{last_line, lines, step};
use crate::mesi::Mesi;
use crate::protocol::{self, Protocol};

#[test]
fn the_example_goes_through_the_states() {
    let mut mesi = Mesi::new();
    let rows = [
        ("load 1 10", None, Some(('E', 0x00)), 0x00, 0x00, Some(0x00)),
        ("store 0 10 41", Some(('M', 0x41)), None, 0x00, 0x41, None),
        (
            "load 1 10",
            Some(('S', 0x41)),
            Some(('S', 0x41)),
            0x41,
            0x41,
            Some(0x41),
        ),
        ("evict 0 1", None, Some(('S', 0x41)), 0x41, 0x41, None),
        ("evict 1 1", None, None, 0x41, 0x41, None),
        ("load 0 10", Some(('E', 0x41)), None, 0x41, 0x41, Some(0x41)),
    ];
    for (text, core0, core1, llc, home, answer) in rows {
        let outcome = protocol::step(&mut mesi, step(text));
        let ended = outcome.ended().expect("every call ends at once");
        assert_eq!(ended.answer, answer, "{text}");
        assert_eq!(mesi.copy(0, 10), core0, "{text}");
        assert_eq!(mesi.copy(1, 10), core1, "{text}");
        assert_eq!(mesi.llc(10), llc, "{text}");
        assert_eq!(mesi.home(10), home, "{text}");
    }
}

#[test]
fn an_evicted_m_line_is_kept() {
    let study = "store 0 10 41; evict 0 1; load 1 10";
    assert_eq!(last_line(2, study), "E 1 L 41 ! 00");
}

#[test]
fn known_study_4_under_bus_mesi() {
    let study = "store 0 10 41; load 1 10";
    assert_eq!(lines(2, study), ["E 0 S 41 . 00", "E 1 L 41 ! 00"]);
}
