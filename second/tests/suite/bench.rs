//! The benchmark's parts that need no linked library.

use second::bench::codec::{Setting, HALVES_AWAY, HALVES_TO_EVEN, NO_HALVES, SETTINGS};
use second::bench::fields::{special_values, Cell, Field, Sample, FIELDS, SIDE, VALUES};
use second::bench::others::{lost, Lost};
use second::bench::picture::{letter_places, overlap, picture};
use second::bench::report::{beside, csv, differences, group_sizes, CSV_HEADER};
use second::bench::rows::Row;
use second::bench::timing::{timed, Contender, Operation, Space, Timing, Watch, Who};
use std::cell::Cell as Counter;
use std::path::PathBuf;

fn share_of(values: &[u32], holds: impl Fn(u32) -> bool) -> f64 {
    values.iter().filter(|&&value| holds(value)).count() as f64 / VALUES as f64
}

#[test]
fn fields_are_repeatable_and_as_named() {
    for field in FIELDS {
        assert!(field.values::<u32>() == field.values::<u32>());
        assert_eq!(field.values::<u64>().len(), VALUES);
    }
    let not_a_number = |value: u32| value.kind() == 2;
    assert!((0.45..0.55).contains(&share_of(&Field::HalfDry.values(), not_a_number)));
    assert!(share_of(&Field::Calm.values(), |value| value == 0) > 0.8);
    assert_eq!(share_of(&Field::Noisy.values(), |value| value.kind() == 0), 1.0);
    let falls = |row: &[u64]| row.is_sorted_by(|a, b| a.float() > b.float());
    assert!(Field::Tide.values().chunks(SIDE).all(falls), "the tide falls along a row");
    let whole = |value: u32| value & 0xFF == 0;
    assert!(share_of(&Field::Smooth.values(), whole) < 0.01, "the last bits are noise");
}

/// A file of its own for each test, in the directory of the test programs.
fn file_of(name: &str, bytes: &[u8]) -> PathBuf {
    let path = PathBuf::from(env!("CARGO_TARGET_TMPDIR")).join(name);
    std::fs::write(&path, bytes).unwrap();
    path
}

#[test]
fn a_file_of_raw_values_is_a_field() {
    let path = file_of("raw, | values.f32", &[0, 0, 128, 63, 1, 0, 0, 128]);
    let singles = Sample::<u32>::of_file(&path).unwrap();
    assert_eq!(
        (singles.name.as_str(), singles.values),
        ("raw____values.f32", vec![0x3F80_0000, 0x8000_0001])
    );
    let doubles = Sample::<u64>::of_file(&path).unwrap();
    assert_eq!(doubles.values, [0x8000_0001_3F80_0000]);
}

#[test]
fn of_a_long_file_as_many_values_are_read_as_a_stream_holds() {
    let path = file_of("long.f32", &vec![1; 4 * VALUES + 3]);
    assert_eq!(Sample::<u32>::of_file(&path).unwrap().values, vec![0x0101_0101; VALUES]);
}

#[test]
fn a_file_that_is_no_field_is_refused_with_what_to_do() {
    let error_of = |path: &PathBuf| Sample::<u64>::of_file(path).err().unwrap();
    let empty = error_of(&file_of("empty.f64", &[]));
    assert!(empty.ends_with("empty.f64 is empty: name a file of one value or more"), "{empty}");
    let ragged = error_of(&file_of("ragged.f64", &[0; 12]));
    assert!(ragged.contains("12 bytes are no whole number of values of 8 bytes: give"), "{ragged}");
    let absent = error_of(&PathBuf::from("no such file"));
    assert!(absent.ends_with(": name a file that can be read"), "{absent}");
}

#[test]
fn lost_values_are_counted_by_kind() {
    let values = special_values::<u64>();
    let altered: Vec<u64> = values.iter().map(|&value| value ^ 1).collect();
    let count = |kind: u64| values.iter().filter(|value| value.kind() == kind).count();
    let all = Lost { not_a_numbers: count(2), infinities: count(1), finite: count(0) };
    assert!(all.not_a_numbers > 0 && all.infinities > 0 && all.finite > 0);
    for setting in SETTINGS {
        assert_eq!(lost(setting, &values, &values), Lost::default());
        let finite = if setting.mode == 1 { 0 } else { all.finite };
        assert_eq!(lost(setting, &values, &altered), Lost { finite, ..all });
    }
}

#[test]
fn a_finite_value_may_be_off_by_the_tolerance_and_no_more() {
    let setting = Setting { level: 14, mode: 1, k: -2, group: 32 };
    let lost_of = |back: f64| lost(setting, &[1f64.to_bits()], &[back.to_bits()]).finite;
    assert_eq!([lost_of(1.25), lost_of(0.75), lost_of(1.26), lost_of(f64::NAN)], [0, 0, 1, 1]);
}

#[test]
fn every_contender_runs_once_a_round() {
    let (first, second) = (Counter::new(0), Counter::new(0));
    let count = |counter: &Counter<u64>| {
        counter.set(counter.get() + 1);
        counter.get()
    };
    let contenders = [
        Contender::new(Who::Ours, Operation::Pack, |_: &mut Space<u32>| count(&first)),
        Contender::new(Who::Tuned, Operation::Pack, |_: &mut Space<u32>| count(&second)),
    ];
    let mut space = Space { bytes: Vec::new(), values: Vec::new() };
    let timings = timed(&contenders, &mut space, Watch { rounds: 15, clock: || 1.5 });
    assert_eq!((first.get(), second.get()), (15, 15));
    assert!(timings.iter().all(|timing| timing.median == 0.0 && timing.minimum == 0.0));
}

#[test]
fn the_picture_is_drawn_from_results_alone() {
    let line = "32,0,32,-,smooth,Gwizdorad,pack,4194304,3600000,0.004,0.003,0";
    let large = "32,0,128,-,smooth,Gwizdorad,pack,4194304,3500000,0.004,0.003,0";
    let even = "32,1,32,even,smooth,Gwizdorad,pack,4194304,3600000,0.004,0.003,0";
    let copy = "32,0,32,-,smooth,memcpy,copy,4194304,4194304,0.0005,0.0004,0";
    let file = "32,0,32,-,sea.f32,Gwizdorad,pack,400,300,0.004,0.003,0";
    let csv = format!("{CSV_HEADER}\n{line}\n{large}\n{even}\n{copy}\n{file}\n");
    let svg = picture(&csv).unwrap();
    // Two marks in a panel, those with groups of 32 and not to even, and two in the legend.
    assert_eq!(svg.matches("<circle").count(), 4);
    assert!(svg.contains("s smooth, c calm, n noisy, h half-dry, t tide, 1 sea.f32."), "{svg}");
    assert!(svg.contains(">s</text>") && svg.contains(">1</text>"), "{svg}");
    assert!(svg.starts_with("<svg") && svg.ends_with("</svg>\n"));
    assert_eq!(picture("width,mode\n"), None);
    assert_eq!(picture(&format!("{CSV_HEADER}\n32,0,32,smooth\n")), None);
}

#[test]
fn a_mark_whose_compressor_lost_values_is_crossed() {
    let crosses = |lost: usize| {
        let who = Who::Zfp;
        let pack = Timing { who, operation: Operation::Pack, median: 0.004, minimum: 0.003 };
        let (sizes, losses) = (vec![(who, 4000)], vec![(who, lost)]);
        let (field, timings) = (String::from("noisy"), vec![pack]);
        let (width, mode, group, halves, n) = (32, 1, 32, HALVES_AWAY, 1024);
        let results = csv(&[Row { width, mode, group, halves, field, n, sizes, losses, timings }]);
        assert!(results.ends_with(&format!(",{lost}\n")), "{results}");
        picture(&results).unwrap().matches("stroke=\"#111\"").count()
    };
    // Two strokes in the panel, and two in the legend.
    assert_eq!([crosses(0), crosses(7)], [0, 4]);
}

/// A row of the library alone, of a thousand values called tide.
fn row_of(width: u32, mode: u32, group: u32, size: usize, seconds: f64) -> Row {
    let who = Who::Ours;
    let timing = |operation, median| Timing { who, operation, median, minimum: median / 2.0 };
    let timings = vec![timing(Operation::Pack, seconds), timing(Operation::Unpack, 1.0)];
    let (field, sizes) = (String::from("tide"), vec![(who, size)]);
    let halves = if mode == 1 { HALVES_AWAY } else { NO_HALVES };
    Row { width, mode, group, halves, field, n: 1000, sizes, losses: vec![], timings }
}

#[test]
fn mode_1_stands_by_both_rules_for_halves_at_each_group_size() {
    let rules = |group: u32| {
        let settings = SETTINGS.into_iter().filter(move |setting| setting.group == group);
        settings.map(|setting| (setting.mode, setting.halves())).collect::<Vec<_>>()
    };
    let expected = [(0, NO_HALVES), (1, HALVES_AWAY), (1, HALVES_TO_EVEN), (2, NO_HALVES)];
    assert_eq!(rules(32), expected);
    assert_eq!(rules(128), expected);
    let even = Row { halves: HALVES_TO_EVEN, ..row_of(32, 1, 32, 1000, 1.0) };
    let text = beside(Who::Ours, "itself", &[row_of(32, 1, 32, 1000, 1.0), even]);
    for halves in ["away", "even"] {
        let line = format!("| 32 | 1 | 32 | {halves} | tide | 25.0 % | 0 (1.00, 1.00) |");
        assert!(text.contains(&line), "{text}");
    }
}

#[test]
fn mode_2_stands_beside_mode_0_of_its_width_and_field() {
    let rows = [
        row_of(32, 0, 32, 3000, 1.0),
        row_of(32, 1, 32, 1, 9.0),
        row_of(32, 2, 32, 1000, 2.0),
        row_of(32, 0, 128, 7, 1.0),
        row_of(32, 2, 128, 7, 2.0),
        row_of(64, 0, 32, 6000, 1.0),
        row_of(64, 2, 32, 4000, 0.5),
    ];
    let text = differences(&rows);
    let lines: Vec<&str> = text.lines().filter(|line| line.contains("tide")).collect();
    assert_eq!(
        lines,
        [
            "| 32 | tide | 75.0 % | 25.0 % | 0.50, 0.50 | 1.00, 1.00 |",
            "| 64 | tide | 75.0 % | 50.0 % | 2.00, 2.00 | 1.00, 1.00 |"
        ]
    );
}

#[test]
fn groups_of_128_stand_beside_groups_of_32() {
    let rows = [row_of(32, 0, 32, 320, 1.0), row_of(32, 0, 128, 80, 2.0)];
    let text = group_sizes(&rows);
    let lines: Vec<&str> = text.lines().filter(|line| line.contains("tide")).collect();
    // 1,000 values have 32 groups of 32, and 8 groups of 128.
    assert_eq!(
        lines,
        ["| 32 | 0 | - | tide | 8.0 % (10.0 %) | 2.0 % (10.0 %) | 0.50, 0.50 |  |  | 1.00, 1.00 |  |"]
    );
}

#[test]
fn no_letter_lies_on_another_or_on_a_mark() {
    // Forty marks on nearly one place, at the edge of a panel.
    let marks: Vec<(f64, f64)> = (0..40).map(|i| (470.0 + f64::from(i % 3), 100.0)).collect();
    let letters = letter_places(&marks, (75.0, 90.0));
    assert_eq!(letters.len(), marks.len());
    for (i, &letter) in letters.iter().enumerate() {
        let room = (9.0, 12.0);
        assert!(!letters[..i].iter().any(|&other| overlap(letter, room, other, room)));
        assert!(!marks.iter().any(|&mark| overlap(letter, room, mark, (15.0, 14.0))));
    }
}
