//! What logix does with the smallest inputs of docs/DIFFERENCES.md that it does
//! not take as the plain coding does.

use super::{component, connection, input_map, lamp, output_map, told, verdict};
use crate::engine::{nested, Engine};
use crate::gen::drawing::file_of;
use crate::plain::drawing::{Drawing, Id, Record};
use crate::plain::look::look;
use crate::tables::Tables;
use logix::Data;
use std::panic::{catch_unwind, AssertUnwindSafe};

/// Whether logix panics while it builds, flattens and starts a drawing.
fn panics(records: &[Record]) -> bool {
    let drawing = Drawing::new(records.to_vec());
    catch_unwind(AssertUnwindSafe(|| Engine::of_drawing(&drawing))).is_err()
}

fn root() -> Record {
    component(0, 0, 0, 0, 1)
}

fn switch(owner: u16, id: u32) -> Record {
    component(7, owner, 0, 1, id)
}

/// A box with no inputs and one output inside the root, a Switch inside it, and
/// so many output maps.
fn boxed(maps: usize) -> Vec<Record> {
    let mut records = vec![root(), component(0, 0, 0, 1, 2), switch(1, 3)];
    records.extend(vec![output_map(1, (0, 0)); maps]);
    records
}

#[test]
fn a_child_that_is_not_there_is_a_panic() {
    let to_nobody = [root(), connection(0, (0, 0), (0, 0))];
    assert_eq!(verdict(&to_nobody), (12, 1));
    assert!(panics(&to_nobody));
    let map_to_nobody = [component(0, 0, 1, 0, 1), input_map(0, 0, (0, 0))];
    assert_eq!(verdict(&map_to_nobody), (12, 1));
    assert!(panics(&map_to_nobody));
}

#[test]
fn an_input_map_of_an_input_that_is_not_there_leads_nowhere() {
    let records = [root(), component(3, 0, 1, 1, 2), input_map(0, 0, (0, 0))];
    assert_eq!(verdict(&records), (12, 2));
    assert!(!panics(&records));
}

/// The smallest drawings in which records meet, four records each.
#[test]
fn two_entries_of_one_input_are_a_panic() {
    let not = component(3, 0, 1, 1, 2);
    let (wire, map) = (connection(0, (0, 0), (0, 0)), input_map(0, 0, (0, 0)));
    for (number, records) in [
        (13, [root(), not, wire, wire]),
        (22, [component(0, 0, 1, 0, 1), not, wire, map]),
        (23, [component(0, 0, 1, 0, 1), not, map, map]),
    ] {
        assert_eq!(told(&records), (number, 3, 2));
        assert!(panics(&records));
        assert!(!panics(&records[..3]));
    }
}

#[test]
fn too_many_output_maps_are_taken_and_never_asked_for() {
    assert_eq!(verdict(&boxed(1)), (0, 0));
    assert!(!panics(&boxed(1)));
    assert_eq!(verdict(&boxed(2)), (14, 1));
    assert!(!panics(&boxed(2)));
}

#[test]
fn too_few_output_maps_are_a_panic_where_one_is_asked_for() {
    assert_eq!(verdict(&boxed(0)), (14, 1));
    assert!(!panics(&boxed(0)));
    let asked = [root(), component(0, 0, 0, 1, 2), component(3, 0, 1, 1, 3), connection(0, (0, 0), (1, 0))];
    assert_eq!(verdict(&asked), (14, 1));
    assert!(panics(&asked));
}

/// What logix shows of a box, without the plain coding's refusals, once its first
/// Switch, or else its first input, is 1.
fn shown(records: &[Record], path: &[usize]) -> (Vec<Data>, Vec<Data>) {
    let Ok(mut flat) = logix::flatten::FlattenComponent::new(nested(&Drawing::new(records.to_vec()), 0));
    first_port(&mut flat.components[0]).set_value(1);
    flat.get_status(path, None).unwrap()
}

fn first_port(component: &mut logix::primitive::PrimitiveComponent) -> &mut Data {
    match component.inputs.is_empty() {
        true => &mut component.outputs[0],
        false => &mut component.inputs[0],
    }
}

/// The number that the plain coding gives a look after a load.
fn look_number(records: &[Record], path: &[Id]) -> u64 {
    let mut tables = Tables::new();
    Engine::of_drawing(&Drawing::new(records.to_vec())).write_net(&mut tables);
    look(&tables, &file_of(records), path).map_or_else(|refusal| refusal.number, |_| 0)
}

#[test]
fn an_input_that_reaches_nothing_is_left_out_or_shows_component_0() {
    let high = Data::new(1, 1);
    let not = component(3, 0, 1, 1, 2);
    let alone = [component(0, 0, 1, 0, 1), not];
    assert_eq!(look_number(&alone, &[]), 21);
    assert_eq!(shown(&alone, &[]), (vec![], vec![]), "after the last that reaches any: left out");
    let before = [component(0, 0, 2, 0, 1), not, component(3, 0, 1, 1, 3), input_map(0, 1, (1, 0))];
    assert_eq!(look_number(&before, &[]), 21);
    assert_eq!(shown(&before, &[]), (vec![high, Data::low()], vec![]), "input 0 of component 0");
    let no_input =
        [component(0, 0, 2, 0, 1), switch(0, 2), component(3, 0, 1, 1, 3), input_map(0, 1, (1, 0))];
    assert_eq!(look_number(&no_input, &[]), 21);
    assert!(catch_unwind(AssertUnwindSafe(|| shown(&no_input, &[]))).is_err(), "component 0 has no input");
}

#[test]
fn a_path_that_leads_nowhere_is_an_error_or_a_panic() {
    let status = |path: &[usize]| {
        let Ok(flat) = logix::flatten::FlattenComponent::new(nested(&Drawing::new(lamp()), 0));
        flat.get_status(path, None).is_err()
    };
    assert_eq!(look_number(&lamp(), &[Id(9)]), 20);
    assert!(status(&[9]));
    assert_eq!(look_number(&lamp(), &[Id(3), Id(4), Id(4)]), 20);
    assert!(catch_unwind(|| status(&[3, 4, 4])).is_err());
}

#[test]
fn an_input_shows_its_driver_in_the_original() {
    let records = [
        root(),
        switch(0, 2),
        component(0, 0, 1, 0, 3),
        Record { parameter: 1, ..component(8, 2, 1, 1, 4) },
        connection(0, (0, 0), (1, 0)),
    ];
    assert_eq!(look_number(&records, &[Id(3), Id(4)]), 0);
    assert_eq!(shown(&records, &[3, 4]), (vec![Data::low()], vec![Data::low()]));
    let drawing = Drawing::new(records.to_vec());
    let Ok(mut original) = logix::original_flatten::FlattenComponent::new(nested(&drawing, 0));
    first_port(&mut original.components[0]).set_value(1);
    let theirs = original.get_status(&[3, 4], None).unwrap();
    assert_eq!(theirs, (vec![Data::low()], vec![Data::new(1, 1)]), "the Switch's output");
}
