//! MODEL.md and README.md.

use super::{bench_after, check_rows, last_line, report_of};
use crate::protocol;

#[test]
fn the_first_study_of_the_readme() {
    let study = "store 0 10 41; load 1 10; release 0; acquire 1; load 1 10";
    let report = report_of(2, study);
    let lines: Vec<&str> = report.lines().collect();
    assert_eq!(
        lines[1..7],
        [
            "E 0 S 41 . 00",
            "E 1 L 41 ! 00",
            "E 0 P -- . 00",
            "E 1 A -- . 00",
            "E 1 L 41 . 00",
            "ended 00005 race 00002",
        ]
    );
}

#[test]
fn the_example_of_the_model() {
    let rows = [
        ("store 0 10 41", "E 0 S 41 . 00"),
        ("load 1 10", "E 1 L 41 ! 00"),
        ("evict 0 1", "E 0 X -- . 00"),
        ("move 0", "R - - -- . 04"),
        ("load 8 64", "R - L -- . 01"),
    ];
    check_rows(2, &rows);
    let study = rows.map(|row| row.0).join(";");
    let bench = bench_after(2, &study);
    assert_eq!(bench.image()[10], 0x41);
    assert!(protocol::open_places(bench.protocol()).is_empty());
    assert_eq!((bench.log().count(), bench.log().first_race()), (3, 2));
}

#[test]
fn refusals_are_the_same_under_every_protocol() {
    for code in 1..=4 {
        for (step, line) in [
            ("load 0 64", "R 0 L -- . 02"),
            ("load 8 64", "R - L -- . 01"),
            ("store 7 255 41", "R 7 S -- . 02"),
            ("store 255 0 41", "R - S -- . 01"),
            ("acquire 8", "R - A -- . 01"),
            ("release 200", "R - P -- . 01"),
            ("evict 0 8", "R 0 X -- . 02"),
            ("evict 8 8", "R - X -- . 01"),
            ("move 0", "R - - -- . 04"),
            ("move 72", "R - - -- . 04"),
            ("move 255", "R - - -- . 04"),
        ] {
            assert_eq!(last_line(code, step), line, "code {code}, {step}");
        }
    }
}

#[test]
fn the_address_is_looked_at_before_the_waiting() {
    for code in [1, 3] {
        for (step, line) in [
            ("load 3 64", "R 3 L -- . 02"),
            ("load 3 0", "R 3 L -- . 03"),
            ("store 3 0 41", "R 3 S -- . 03"),
            ("evict 3 8", "R 3 X -- . 02"),
            ("evict 3 0", "R 3 X -- . 03"),
            ("acquire 3", "R 3 A -- . 03"),
            ("release 3", "R 3 P -- . 03"),
        ] {
            let study = format!("acquire 3; {step}");
            assert_eq!(last_line(code, &study), line, "code {code}, {step}");
        }
    }
}
