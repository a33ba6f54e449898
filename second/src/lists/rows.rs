//! The rows of the table of lists.

use crate::table::Section;

/// The bottom, Neat or MESI, and the number of buffers.
pub const COLUMNS: [&str; 6] = ["Neat 0", "Neat 1", "Neat 2", "MESI 0", "MESI 1", "MESI 2"];

const fn section(title: &'static str, rows: &'static [&'static str]) -> Section {
    Section {
        title,
        by_column: true,
        rows,
    }
}

pub const SECTIONS: [Section; 12] = [
    section(
        "lists",
        &[
            "lists",
            "requests",
            "broken, the first two bytes",
            "broken, ends inside a request",
            "broken, unknown request",
            "broken, unknown kind of step",
            "broken, unknown part of a study",
        ],
    ),
    section(
        "steps, alone or in a run",
        &[
            "refused 1",
            "refused 2",
            "refused 3",
            "refused 4",
            "load waits",
            "store waits",
            "acquire waits",
            "release waits",
            "load ended",
            "store ended",
            "acquire ended",
            "release ended",
            "evict ended",
            "ended, marked",
            "moved",
            "moved, load ended",
            "moved, store ended",
            "moved, acquire ended",
            "moved, release ended",
            "moved, ended, marked",
        ],
    ),
    section(
        "runs",
        &[
            "no step",
            "room: none",
            "room: fewer",
            "room: one too few",
            "room: exactly enough",
            "room: more than enough",
            "made, with a refused step inside",
            "turned down, with a refused step inside",
        ],
    ),
    section(
        "settles",
        &[
            "no place open, no room",
            "no place open, some room",
            "room: none",
            "room: fewer",
            "room: one too few",
            "room: exactly enough",
            "room: more than enough",
            "a call ends",
        ],
    ),
    section(
        "images",
        &[
            "below 63, byte 00",
            "below 63, another byte",
            "63",
            "64",
            "above 64",
        ],
    ),
    section(
        "next open places",
        &[
            "no place open",
            "below every open place",
            "at an open place",
            "between open places",
            "above every open place, below 72",
            "72",
            "above 72",
        ],
    ),
    section(
        "counts",
        &["no call ended", "calls ended, no race", "a race"],
    ),
    section(
        "set-ups",
        &[
            "while a place is open",
            "while there are buffered stores",
            "after a race",
            "after none of these",
        ],
    ),
    section(
        "writer",
        &[
            "known code, room: none",
            "known code, room: fewer",
            "known code, room: one too few",
            "known code, room: exactly enough",
            "known code, room: more than enough",
            "unknown code, too little room",
            "unknown code, room enough",
        ],
    ),
    section(
        "study files",
        &[
            "sound, output: none",
            "sound, output: fewer",
            "sound, output: one too few",
            "sound, output: exactly enough",
            "sound, output: more than enough",
            "fault 5, output too short",
            "fault 6, output too short",
            "fault 7, output too short",
            "fault 8, output too short",
            "fault 9, output too short",
            "a fault, output for a report",
        ],
    ),
    section(
        "whole studies",
        &[
            "answers: none",
            "answers: fewer",
            "answers: one too few",
            "outcomes: none",
            "outcomes: fewer",
            "outcomes: one too few",
            "too few answers and outcomes",
            "exactly enough of both",
            "more than enough answers",
            "more than enough outcomes",
            "more than enough of both",
            "made, on a bench with a place open",
            "turned down, on a bench with a place open",
        ],
    ),
    section(
        "parts of whole studies",
        &[
            "step, refused",
            "step, waits",
            "step, ended",
            "step, moved",
            "step past the steps",
            "run with room",
            "run without room",
            "run beyond the steps",
            "settle without room, a place is open",
            "settle, a place is still open",
            "settle, no place was open",
            "settle, no place is open any more",
            "image",
            "image, refused",
            "next open place",
            "next open place, none",
            "room left at the end",
        ],
    ),
];
