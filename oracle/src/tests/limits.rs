//! The boundaries of the checks.

use super::{component, connection, input_map, lamp, output_map, told, verdict};
use crate::plain::drawing::Record;
use crate::plain::judge::{judge, Refusal};
use crate::plain::kinds::{greatest, PERIOD_MAX};

/// A root and so many copies of a component below it, with ids of their own.
fn root_and(copies: usize, below: Record) -> Vec<Record> {
    let mut records = vec![component(0, 0, 0, 0, 1_000)];
    records.extend((0..copies).map(|id| Record { id: id as u32, ..below }));
    records
}

/// A switch, 16 gates of 64 inputs, and so many records in all.
fn with_records(count: usize) -> Vec<Record> {
    let mut records = root_and(16, component(1, 0, 64, 1, 0));
    records.push(component(7, 0, 0, 1, 2_000));
    for wire in 0..count - records.len() {
        records.push(connection(0, (16, 0), (wire as u16 / 64, wire as u16 % 64)));
    }
    records
}

#[test]
fn a_file_has_1_to_1024_records() {
    for file in [&[1; 0][..], &[1; 23], &[1; 25]] {
        assert_eq!(judge(file), Err(Refusal::of(1)));
    }
    assert_eq!(verdict(&with_records(1_024)), (0, 0));
    assert_eq!(verdict(&with_records(1_025)), (1, 0));
}

#[test]
fn the_root_may_be_empty_or_a_primitive() {
    assert_eq!(verdict(&[component(0, 0, 64, 0, 5)]), (0, 0));
    assert_eq!(verdict(&[component(7, 0, 0, 1, 5)]), (0, 0));
    assert_eq!(verdict(&[component(7, 1, 0, 1, 5)]), (5, 0));
    assert_eq!(verdict(&[component(7, 0, 0, 1, 5), component(7, 0, 0, 1, 6)]), (5, 1));
}

#[test]
fn components_are_numbered_below_256() {
    assert_eq!(verdict(&root_and(255, component(7, 0, 0, 1, 0))), (0, 0));
    assert_eq!(verdict(&root_and(256, component(7, 0, 0, 1, 0))), (6, 256));
}

/// Composites, each in the one before.
fn chain(length: u16) -> Vec<Record> {
    (0..length).map(|at| component(0, at.saturating_sub(1), 0, 0, at as u32)).collect()
}

#[test]
fn depth_is_at_most_16() {
    assert_eq!(verdict(&chain(16)), (0, 0));
    assert_eq!(verdict(&chain(17)), (6, 16));
    let mut records = chain(16);
    records.push(component(7, 15, 0, 1, 99));
    assert_eq!(verdict(&records), (6, 16));
    records[16].owner = 14;
    assert_eq!(verdict(&records), (0, 0));
}

#[test]
fn owners_are_open_composites() {
    let with_owner = |at: usize, owner: u16| {
        let mut records = lamp();
        records[at].owner = owner;
        verdict(&records)
    };
    assert_eq!(with_owner(0, 1), (5, 0), "the root's owner");
    assert_eq!(with_owner(4, 4), (5, 4), "itself");
    assert_eq!(with_owner(4, 5), (5, 4), "the next one");
    assert_eq!(with_owner(4, 2), (5, 4), "a primitive");
    assert_eq!(with_owner(5, 60_000), (5, 5), "past the file");
    assert_eq!(with_owner(11, 4), (5, 11), "a line below a primitive");
    assert_eq!(with_owner(11, 12), (5, 11), "a line below no component");
    let mut records = lamp();
    records.insert(6, component(7, 3, 0, 1, 50));
    assert_eq!(verdict(&records), (5, 6), "a closed composite");
}

#[test]
fn an_owner_past_256_is_looked_up_before_check_6() {
    let mut records = root_and(256, component(7, 0, 0, 1, 0));
    records.push(component(0, 0, 0, 0, 3_000));
    records.push(component(7, 257, 0, 1, 3_001));
    assert_eq!(verdict(&records), (6, 256));
    records[258].owner = 256;
    assert_eq!(verdict(&records), (5, 258));
}

#[test]
fn primitives_have_at_most_1024_inputs_and_outputs() {
    let mut records = root_and(16, component(2, 0, 64, 1, 0));
    assert_eq!(verdict(&records), (0, 0));
    records.push(component(3, 0, 1, 1, 99));
    assert_eq!(verdict(&records), (11, 17));
    for (splitters, bits) in [(32, 32), (16, 64)] {
        let splitter = Record { parameter: bits as u64, ..component(10, 0, 1, bits, 0) };
        let mut records = root_and(splitters, splitter);
        assert_eq!(verdict(&records), (0, 0));
        records.push(component(0, 0, 64, 0, 98));
        assert_eq!(verdict(&records), (0, 0), "a composite's ports do not count");
        records.push(component(7, 0, 0, 1, 99));
        assert_eq!(verdict(&records), (11, splitters as u64 + 2));
    }
}

#[test]
fn a_side_has_at_most_64_ports() {
    for kind in [1, 2, 4, 5, 6, 15] {
        assert_eq!(verdict(&root_and(1, component(kind, 0, 64, 1, 0))), (0, 0));
        assert_eq!(verdict(&root_and(1, component(kind, 0, 65, 1, 0))), (9, 1));
    }
    for kind in [6, 15] {
        assert_eq!(verdict(&root_and(1, component(kind, 0, 1, 1, 0))), (0, 0));
        assert_eq!(verdict(&root_and(1, component(kind, 0, 0, 1, 0))), (9, 1));
    }
    assert_eq!(verdict(&root_and(1, component(0, 0, 65, 0, 0))), (9, 1));
    let with_outputs = |outputs: u16| {
        let mut records = vec![component(0, 0, 0, outputs, 8), component(7, 0, 0, 1, 9)];
        records.extend((0..outputs).map(|_| output_map(0, (0, 0))));
        verdict(&records)
    };
    assert_eq!(with_outputs(64), (0, 0));
    assert_eq!(with_outputs(65), (9, 0));
}

#[test]
fn periods_and_const_values_have_bounds() {
    let clock = |period| verdict(&[Record { parameter: period, ..component(12, 0, 0, 1, 0) }]);
    assert_eq!([clock(0), clock(1)], [(9, 0), (0, 0)]);
    assert_eq!([clock(PERIOD_MAX), clock(PERIOD_MAX + 1)], [(0, 0), (9, 0)]);
    let constant =
        |width, value| verdict(&[Record { c: width, parameter: value, ..component(13, 0, 0, 1, 0) }]);
    for width in 1..64 {
        assert_eq!(constant(width, greatest(width as u64)), (0, 0));
        assert_eq!(constant(width, 1 << width), (9, 0));
    }
    assert_eq!(constant(64, u64::MAX), (0, 0));
    assert_eq!([constant(0, 0), constant(65, 0)], [(9, 0), (9, 0)]);
}

#[test]
fn kinds_14_and_16_are_7_and_8() {
    let kind = |kind| verdict(&[component(kind, 0, 1, 1, 0)]);
    assert_eq!([kind(14), kind(15), kind(16), kind(255)], [(7, 0), (0, 0), (8, 0), (8, 0)]);
}

#[test]
fn children_and_ports_exist() {
    let changed = |at: usize, change: fn(&mut Record)| {
        let mut records = lamp();
        change(&mut records[at]);
        verdict(&records)
    };
    assert_eq!(changed(6, |r| r.a = 4), (12, 6));
    assert_eq!(changed(6, |r| r.b = 1), (12, 6));
    assert_eq!(changed(6, |r| r.c = 4), (12, 6));
    assert_eq!(changed(6, |r| r.d = 2), (12, 6));
    assert_eq!(changed(9, |r| r.a = 2), (12, 9));
    assert_eq!(changed(9, |r| r.c = 1), (12, 9));
    assert_eq!(changed(11, |r| r.a = 1), (12, 11));
}

#[test]
fn output_maps_are_as_many_as_outputs() {
    let mut records = lamp();
    records.push(output_map(3, (0, 0)));
    assert_eq!(verdict(&records), (14, 3));
    records.truncate(11);
    assert_eq!(verdict(&records), (14, 3));
}

#[test]
fn a_wire_has_one_width() {
    let mut records = lamp();
    records[5].parameter = 2;
    assert_eq!(verdict(&records), (15, 8));
}

#[test]
fn records_that_meet_may_be_the_first_and_the_last() {
    let last = |count: usize, lines: &[Record]| {
        let mut records = with_records(count);
        records[0].a = 1;
        records.extend(lines);
        told(&records)
    };
    let (again, unlike) = (connection(0, (16, 0), (0, 0)), connection(0, (0, 0), (15, 44)));
    let (beside, open) = (input_map(0, 0, (0, 0)), input_map(0, 0, (15, 63)));
    assert_eq!(last(1_023, &[again]), (13, 1_023, 18));
    assert_eq!(last(1_023, &[unlike]), (13, 1_023, 1_022));
    assert_eq!(last(1_023, &[beside]), (22, 1_023, 18));
    assert_eq!(last(1_022, &[open, open]), (23, 1_023, 1_022));
    assert_eq!(last(1_022, &[open, beside]), (22, 1_023, 18));
    assert_eq!(last(1_023, &[again, again]), (1, 0, 0), "a record too many");
}
