//! FILES.md.

use super::{image_with, report_of};
use crate::corpus;
use crate::file::{self, Study};
use crate::report;

fn printed(bytes: &[u8]) -> (String, bool) {
    let printed = report::of_file(bytes);
    (printed.text, printed.sound)
}

#[test]
fn the_example_prints_its_report() {
    let expected = format!(
        "protocol 2\n\
         E 0 S 41 . 00\n\
         E 1 L 41 ! 00\n\
         E 0 X -- . 00\n\
         R - - -- . 04\n\
         ended 00003 race 00002\n\
         {}41{}\n",
        "0".repeat(20),
        "0".repeat(106)
    );
    assert_eq!(corpus::FIRST[2].len(), 29);
    assert_eq!(printed(corpus::FIRST[2]), (expected, true));
}

#[test]
fn the_longer_example_prints_its_report() {
    let expected = format!(
        "protocol 1\n\
         W 0 S -- . 00\n\
         M - - -- . 00\n\
         M 0 S 41 . 00\n\
         W 0 P -- . 00\n\
         M - - -- . 00\n\
         M - - -- . 00\n\
         M 0 P -- . 00\n\
         W 1 A -- . 00\n\
         M - - -- . 00\n\
         M 1 A -- . 00\n\
         W 1 L -- . 00\n\
         M - - -- . 00\n\
         M 1 L 41 . 00\n\
         ended 00004 race 00000\n\
         {}\n",
        image_with(10, 0x41)
    );
    let study = "store 0 10 41; move 1; move 1; release 0; move 8; move 1; move 8; \
                 acquire 1; move 17; move 17; load 1 10; move 10; move 10";
    assert_eq!(report_of(1, study), expected);
}

#[test]
fn a_report_has_163_and_14_bytes_for_each_step() {
    assert_eq!(printed(&[3, 0, 1, 0, 4]).0.len(), 163);
    assert_eq!(printed(corpus::FIRST[2]).0.len(), 163 + 14 * 4);
}

#[test]
fn the_listed_files_have_the_listed_faults() {
    let files: [(&[u8], &str); 14] = [
        (&[], "fault 08 place 00000 layer 2"),
        (&[3], "fault 05 place 00000 layer 1"),
        (&[1, 0], "fault 05 place 00000 layer 1"),
        (&[0, 0], "fault 07 place 00000 layer 1"),
        (&[1, 0, 5], "fault 07 place 00000 layer 1"),
        (&[255, 255, 1, 0, 2], "fault 05 place 00000 layer 1"),
        (&[2, 0, 9, 0], "fault 06 place 00000 layer 1"),
        (&[3, 0, 1, 1, 2], "fault 06 place 00000 layer 1"),
        (&[2, 0, 1, 0], "fault 07 place 00000 layer 1"),
        (&[4, 0, 1, 0, 2, 0], "fault 07 place 00000 layer 1"),
        (&[3, 0, 4, 0, 0], "fault 08 place 00000 layer 2"),
        (&[3, 0, 1, 0, 5], "fault 09 place 00000 layer 2"),
        (
            &[3, 0, 1, 0, 2, 3, 0, 1, 0, 5],
            "fault 08 place 00005 layer 2",
        ),
        (&[3, 0, 1, 0, 2, 3, 0, 7], "fault 05 place 00005 layer 1"),
    ];
    for (bytes, line) in files {
        let line = format!("{line}\n");
        assert_eq!(line.len(), 29);
        assert_eq!(printed(bytes), (line, false), "{bytes:?}");
    }
}

/// A file with as many steps as there may be, of five bytes each.
fn full() -> Vec<u8> {
    let mut bytes = vec![3, 0, 1, 0, 2];
    for _ in 0..4096 {
        bytes.extend([3, 0, 7, 0, 0]);
    }
    bytes
}

#[test]
fn after_4096_steps_only_a_sound_step_is_too_many() {
    assert!(printed(&full()).1);
    let tails: [(&[u8], &str); 7] = [
        (&[3, 0, 4, 0, 0], "fault 10 place 20485 layer 1\n"),
        (&[3, 0, 1, 0, 2], "fault 08 place 20485 layer 2\n"),
        (&[3, 0, 1, 0, 9], "fault 08 place 20485 layer 2\n"),
        (&[3], "fault 05 place 20485 layer 1\n"),
        (&[0, 0], "fault 07 place 20485 layer 1\n"),
        (&[2, 0, 8, 0], "fault 06 place 20485 layer 1\n"),
        (&[2, 0, 7, 0], "fault 07 place 20485 layer 1\n"),
    ];
    for (tail, line) in tails {
        let mut bytes = full();
        bytes.extend(tail);
        assert_eq!(printed(&bytes), (line.into(), false), "{tail:?}");
    }
}

#[test]
fn a_file_of_32768_bytes_is_read_and_one_byte_more_is_too_long() {
    let mut bytes = vec![0; 32_768];
    assert_eq!(printed(&bytes).0, "fault 07 place 00000 layer 1\n");
    bytes.push(0);
    assert_eq!(printed(&bytes).0, "fault 10 place 32768 layer 1\n");
}

#[test]
fn fields_out_of_range_are_no_fault_of_the_file() {
    assert_eq!(
        printed(&[3, 0, 1, 0, 1, 4, 0, 2, 0, 9, 200]).0[11..25],
        *"R - L -- . 01\n"
    );
}

#[test]
fn a_written_file_is_read_back() {
    let study = Study {
        code: 3,
        steps: super::steps(
            "load 255 200; store 8 64 ff; acquire 9; release 0; evict 7 255; move 255",
        ),
    };
    assert_eq!(file::read(&file::write(&study)), Ok(study));
}

#[test]
fn the_longest_written_file_has_28677_bytes() {
    let study = Study {
        code: 4,
        steps: vec![super::step("store 0 0 00"); 4096],
    };
    let bytes = file::write(&study);
    assert_eq!(bytes.len(), 28_677);
    assert_eq!(file::read(&bytes), Ok(study));
}
