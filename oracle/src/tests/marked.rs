//! The marked cases (a) to (j), and a single component's refusals.

use super::answer;
use crate::command::{Command, Single};
use crate::plain::kinds::{Fields, PERIOD_MAX};
use crate::plain::single::PortValue;
use crate::program::Program;

fn fields(kind: u64, inputs: u64, outputs: u64, width: u64, parameter: u64) -> Fields {
    Fields { kind, inputs, outputs, width, parameter }
}

/// The answer for a component with those inputs; old outputs are 0.
fn evaluate(fields: Fields, inputs: &[u64], time: u64) -> String {
    let value = |number, width| PortValue { number, width };
    let inputs = inputs.iter().map(|number| value(*number, fields.input_width())).collect();
    let outputs = (0..fields.outputs).map(|_| value(0, fields.output_width())).collect();
    let single = Single { fields, time, inputs, outputs };
    answer(&mut Program::new(), Command::Evaluate(single)).trim_end().to_string()
}

#[test]
fn cases_a_to_j() {
    assert_eq!(evaluate(fields(1, 0, 1, 0, 0), &[], 0), "evaluate 0 1 1", "(a)");
    assert_eq!(evaluate(fields(5, 0, 1, 0, 0), &[], 0), "evaluate 0 1 1", "(b)");
    assert_eq!(evaluate(fields(2, 0, 1, 0, 0), &[], 0), "evaluate 0 0 0", "(c)");
    assert_eq!(evaluate(fields(6, 3, 1, 0, 0), &[1, 1, 1], 0), "evaluate 0 1 1", "(d)");
    assert_eq!(evaluate(fields(10, 1, 3, 0, 3), &[5], 0), "evaluate 0 5 1 0 1", "(e)");
    assert_eq!(evaluate(fields(11, 3, 1, 0, 3), &[0, 1, 1], 0), "evaluate 0 1 6", "(f)");
    let clock = |period, time| evaluate(fields(12, 0, 1, 0, period), &[], time);
    assert_eq!(clock(10, 10), "evaluate 0 0 0", "(g)");
    assert_eq!(clock(10, 11), "evaluate 0 1 1", "(h)");
    assert_eq!(clock(10, 20), "evaluate 0 0 0", "(i)");
    assert_eq!(clock(1, 1), "evaluate 0 0 0", "(j)");
}

#[test]
fn a_clock_of_the_greatest_period_does_not_overflow() {
    let clock = |time| evaluate(fields(12, 0, 1, 0, PERIOD_MAX), &[], time);
    assert_eq!(clock(PERIOD_MAX), "evaluate 0 0 0");
    assert_eq!(clock(PERIOD_MAX + 1), "evaluate 0 1 1");
    assert_eq!(clock(2 * PERIOD_MAX), "evaluate 0 0 0");
    assert_eq!(clock(u64::MAX), "evaluate 0 1 1");
}

#[test]
fn a_complement_flips_one_bit_only() {
    assert_eq!(evaluate(fields(3, 1, 1, 0, 0), &[0], 0), "evaluate 0 1 1");
    assert_eq!(evaluate(fields(3, 1, 1, 0, 0), &[1], 0), "evaluate 0 0 0");
}

#[test]
fn refusals_come_in_the_order_7_8_9_2_19() {
    let no_values = |kind| {
        let single = Single { fields: fields(kind, 1, 1, 0, 0), time: 0, inputs: vec![], outputs: vec![] };
        answer(&mut Program::new(), Command::Evaluate(single))
    };
    assert_eq!(no_values(14), "evaluate 7 0\n");
    assert_eq!(no_values(16), "evaluate 8 0\n");
    assert_eq!(no_values(15), "evaluate 2 0\n");
    assert_eq!(no_values(0), "evaluate 9 0\n");
    assert_eq!(no_values(7), "evaluate 9 0\n");
    assert_eq!(no_values(3), "evaluate 2 0\n");
    assert_eq!(evaluate(fields(3, 1, 1, 0, 0), &[2], 0), "evaluate 19 0 0");
}

#[test]
fn values_past_the_ports_are_kept_and_not_judged() {
    let odd = PortValue { number: 1 << 40, width: 200 };
    let bit = PortValue { number: 0, width: 1 };
    let single =
        Single { fields: fields(3, 1, 1, 0, 0), time: 0, inputs: vec![bit, odd], outputs: vec![bit, odd] };
    let line = answer(&mut Program::new(), Command::Evaluate(single));
    assert_eq!(line, "evaluate 0 1 1 1099511627776\n");
}

#[test]
fn a_const_keeps_what_its_output_holds() {
    let held = PortValue { number: 2, width: 3 };
    let single = Single { fields: fields(13, 0, 1, 3, 5), time: 0, inputs: vec![], outputs: vec![held] };
    assert_eq!(answer(&mut Program::new(), Command::Evaluate(single)), "evaluate 0 0 2\n");
}
