//! REQUESTS.md.

use crate::lists::format::{self, Reader, Request};
use crate::lists::text::{of_input, of_list};
use crate::lists::{count, draw};
use crate::protocol::{Bottom, Stack};

const FILL: &str = "E - X -- ! 00";
const NO_ROOM: &str = "fault 12 place 00000 layer 3";

/// Bytes as the documents write them.
fn bytes(text: &str) -> Vec<u8> {
    text.split_whitespace()
        .map(|word| u8::from_str_radix(word, 16).expect("a number to base sixteen"))
        .collect()
}

/// Checks the text of a list, given as bytes and lines.
fn check(list: &str, lines: &[&str]) {
    let expected: String = lines.iter().map(|line| format!("{line}\n")).collect();
    assert_eq!(of_list(&bytes(list)), expected, "{list}");
}

#[test]
fn the_example() {
    let input = "0d 00 00 00  01 00  01 03 00 0a 41  03 01  05 00  04 40";
    let expected = "list 1 0\n\
                    W 0 S -- . 00\n\
                    settle 00001 open\n\
                    M - - -- . 00\n\
                    next 00001\n\
                    image refused 02\n";
    assert_eq!(of_input(&bytes(input)), expected);
    let twice = format!("{input} {input}");
    assert_eq!(of_input(&bytes(&twice)), format!("{expected}{expected}"));
}

#[test]
fn a_run_without_room_changes_nothing() {
    let steps = "03 00 0a 41  07 00  02 01 0a";
    check(
        &format!("02 00  02 03 02 {steps}  04 0a  06  02 03 04 {steps}  06"),
        &[
            "list 2 0",
            NO_ROOM,
            FILL,
            FILL,
            "image 00",
            "ended 00000 race 00000",
            "run done",
            "E 0 S 41 . 00",
            "R - - -- . 04",
            "E 1 L 41 ! 00",
            FILL,
            "ended 00002 race 00002",
        ],
    );
}

#[test]
fn a_run_of_no_steps_needs_no_room() {
    check("02 00  02 00 00", &["list 2 0", "run done"]);
    check("02 00  02 00 01", &["list 2 0", "run done", FILL]);
}

#[test]
fn settles_by_room() {
    check(
        "01 00  01 03 00 0a 41  03 00  03 01  03 01  03 02",
        &[
            "list 1 0",
            "W 0 S -- . 00",
            "settle 00000 open",
            "settle 00001 open",
            "M - - -- . 00",
            "settle 00001 shut",
            "M 0 S 41 . 00",
            "settle 00000 shut",
            FILL,
            FILL,
        ],
    );
}

#[test]
fn next_open_places() {
    // Close in place 71, and GetLine in place 10.
    check(
        "01 00  01 04 07  01 02 01 0a  05 00  05 0a  05 0b  05 47  05 48  05 ff",
        &[
            "list 1 0",
            "W 7 A -- . 00",
            "W 1 L -- . 00",
            "next 00010",
            "next 00010",
            "next 00071",
            "next 00071",
            "next none",
            "next none",
        ],
    );
}

#[test]
fn a_set_up_begins_a_new_study() {
    check(
        "02 01  01 03 00 0a 41  01 02 01 0a  06  01 05 00  04 0a  07  04 0a  01 02 00 0a  06",
        &[
            "list 2 1",
            "E 0 S 41 . 00",
            "E 1 L 00 ! 00",
            "ended 00002 race 00002",
            "E 0 P -- . 00",
            "image 41",
            "set up",
            "image 00",
            "E 0 L 00 . 00",
            "ended 00001 race 00000",
        ],
    );
}

#[test]
fn the_writer_by_room_and_code() {
    let steps = "01  07 ff";
    check(
        &format!(
            "01 00  08 02 0b 00 {steps}  08 02 0a 00 {steps}  08 02 09 00 {steps} \
             08 02 00 00 {steps}  08 05 0b 00 {steps}  08 00 01 00 {steps}"
        ),
        &[
            "list 1 0",
            "wrote 00010",
            "030001000203000700ffee",
            "wrote 00010",
            "030001000203000700ff",
            "fault 11 place 00000 layer 3",
            "eeeeeeeeeeeeeeeeee",
            "fault 11 place 00000 layer 3",
            "",
            "fault 09 place 00000 layer 3",
            "eeeeeeeeeeeeeeeeeeeeee",
            "fault 09 place 00000 layer 3",
            "ee",
        ],
    );
}

/// The study file of bus MESI without steps, and its report as digits.
const EMPTY_STUDY: &str = "05 00  03 00 01 00 02";

fn empty_report() -> String {
    let report = format!("protocol 2\nended 00000 race 00000\n{}\n", "00".repeat(64));
    report.bytes().map(|byte| format!("{byte:02x}")).collect()
}

#[test]
fn study_files_by_output() {
    let report = empty_report();
    check(
        &format!("01 02  09 a3 00 {EMPTY_STUDY}  09 a4 00 {EMPTY_STUDY}  09 a2 00 {EMPTY_STUDY}"),
        &[
            "list 1 2",
            "report 00163",
            &report,
            "report 00163",
            &format!("{report}ee"),
            "fault 11 place 00000 layer 3",
            &"ee".repeat(162),
        ],
    );
}

#[test]
fn a_files_own_fault_comes_before_a_short_output() {
    check(
        "01 00  09 00 00 05 00  03 00 01 00 05  09 02 00 00 00",
        &[
            "list 1 0",
            "fault 09 place 00000 layer 2",
            "",
            "fault 08 place 00000 layer 2",
            "eeee",
        ],
    );
}

/// Three steps, and eight parts whose rooms are six together.
const STUDY: &str = "0a  03  03 00 0a 41  02 00 0a  07 01  \
                     08  01 00  02 01 02 01  02 01 09 03  03 02  01 07  04 0a  04 40  05 00";

#[test]
fn a_whole_study() {
    check(
        &format!("01 00  {STUDY}  09 07  06  01 02 00 0a"),
        &[
            "list 1 0",
            "study 00003",
            "W - - -- . 00",
            NO_ROOM,
            "run done",
            "settle 00001 shut",
            "R - - -- . 04",
            "image 00",
            "image refused 02",
            "next none",
            "next 00255",
            "R - - -- . 03",
            "M - - -- . 00",
            "M 0 S 41 . 00",
            FILL,
            FILL,
            FILL,
            FILL,
            "ended 00001 race 00000",
            "E 0 L 41 . 00",
        ],
    );
}

#[test]
fn a_whole_study_without_answers_or_outcomes_changes_nothing() {
    for (lists, answers, outcomes) in [("08 05", 8, 5), ("07 06", 7, 6), ("00 00", 0, 0)] {
        let mut lines = vec!["list 1 0", "W 3 A -- . 00", NO_ROOM];
        lines.extend(vec!["next 00255"; answers]);
        lines.extend(vec![FILL; outcomes]);
        lines.push("next 00035");
        check(&format!("01 00  01 04 03  {STUDY}  {lists}  05 00"), &lines);
    }
    check(
        "01 00  01 04 03  0a 00 00 00 00  05 00",
        &["list 1 0", "W 3 A -- . 00", "study 00000", "next none"],
    );
}

#[test]
fn a_store_goes_through_two_buffers() {
    // Nine stores: the upper buffer has the last four, the lower one four, and one is below.
    let mut list = String::from("02 02");
    let mut lines = vec!["list 2 2".to_string()];
    for address in 0..9 {
        list += &format!("  01 03 00 {address:02x} 4{address:x}");
        lines.push(format!("E 0 S 4{address:x} . 00"));
    }
    list += "  04 00  04 01  01 05 00  04 01  04 08";
    for line in [
        "image 40",
        "image 00",
        "E 0 P -- . 00",
        "image 41",
        "image 48",
    ] {
        lines.push(line.into());
    }
    let lines: Vec<&str> = lines.iter().map(String::as_str).collect();
    check(&list, &lines);
}

#[test]
fn broken_lists() {
    for list in ["", "01", "00 00", "03 00", "01 03", "02 ff  06"] {
        check(list, &["broken"]);
    }
    for tail in [
        "00",
        "0b",
        "01",
        "01 08 00",
        "01 01 02",
        "01 03 00 0a",
        "02 02 02 07 00",
        "02 01 01 00 00",
        "03",
        "08 02 00",
        "09 ff 00 05 00 03 00 01 00",
        "0a 00 01 06 00 01 00",
        "0a 00 01 03",
        "0a 00 00 00",
    ] {
        let counted = "ended 00000 race 00000";
        check(
            &format!("01 00  06  {tail}"),
            &["list 1 0", counted, "broken"],
        );
    }
}

#[test]
fn the_next_list_begins_behind_a_broken_one() {
    let input = "03 00 00 00  01 00 0b  02 00 00 00  02 00  00 00 00 00  05 00 00 00 01";
    let expected = "list 1 0\nbroken\nlist 2 0\nbroken\nbroken\n";
    assert_eq!(of_input(&bytes(input)), expected);
}

#[test]
fn reaches_of_stacks() {
    let reach = |bottom, buffers| Stack { bottom, buffers }.cleared().reach();
    assert_eq!([0, 1, 2].map(|n| reach(Bottom::Mesi, n)), [0, 5, 30]);
    assert_eq!([0, 1, 2].map(|n| reach(Bottom::Neat, n)), [18, 95, 480]);
}

/// The requests of a list, if it is not broken.
fn requests(list: &[u8]) -> Option<(Stack, Vec<Request>)> {
    let (stack, mut reader) = Reader::new(list).ok()?;
    let mut requests = Vec::new();
    while let Some(request) = reader.next() {
        requests.push(request.ok()?);
    }
    Some((stack, requests))
}

#[test]
fn a_list_that_is_not_broken_is_written_back() {
    let mut whole = 0;
    for number in 0..300 {
        let list = draw::list(4, number);
        match requests(&list) {
            Some((stack, requests)) => {
                assert!((10..=60).contains(&requests.len()));
                assert_eq!(format::write(stack, &requests), list);
                whole += 1;
            }
            None => assert!(of_list(&list).ends_with("broken\n")),
        }
    }
    assert!((190..250).contains(&whole));
}

#[test]
fn a_list_depends_on_seed_and_number_alone() {
    assert_eq!(draw::input(6, 3..5), draw::input(6, 3..5));
    assert_ne!(draw::list(6, 3), draw::list(7, 3));
    let all = draw::input(6, 0..5);
    assert!(all.ends_with(&draw::input(6, 3..5)));
}

#[test]
fn every_row_of_the_table_has_enough() {
    let table = count::count(&draw::input(1, 0..1500));
    let few: Vec<&str> = table
        .lines()
        .filter(|line| line.ends_with(" few"))
        .collect();
    assert!(few.is_empty(), "{few:#?}");
    assert!(table.ends_with("1500 lists\n"));
}
