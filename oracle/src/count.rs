//! The Rust's side of tests/instructions, which compiles it for x86-64: the calls of
//! tests/instructions.c, in the same order and under the same numbers, between the same
//! marks. It is no part of the oracle.
//!
//! A load is what logix does for one: the records, the nested component, the flat one, the
//! simulator with its lists filled. A round is one pass of logix, without check 16. logix has
//! no judge: what is counted in its place is the plain second coding of the checks. With a
//! time after the file only the round with all listed is made, at that time. Prints what it
//! loaded, and how many rounds it took to settle, or 0 with a time.

// Of the oracle's modules little is needed here.
#![allow(dead_code)]

mod command;
mod engine;
mod io;
mod plain;
mod primitive;
mod tables;

use logix::flatten::FlattenComponent;
use logix::simulator::{SimState, Simulator};
use plain::drawing::{records, Drawing};
use std::hint::black_box;

const START: i64 = 1;
const STOP: i64 = 2;
const MARK: i64 = 0x6d61_726b;

/// The first two are to warm up. Of the others the mean is taken: each time the hash maps have
/// other seeds, and the allocator has other memory free.
const TIMES: usize = 22;
const TIME: u128 = 5;
const ROUNDS_MAX: usize = 10_000;

/// In the place of the C library's, which the hash maps take their seeds from: they start alike
/// in every process, and so the counts are the same in every run.
#[no_mangle]
pub unsafe extern "C" fn getrandom(to: *mut u8, count: usize, _flags: u32) -> isize {
    for at in 0..count {
        to.add(at).write(0x5a);
    }
    count as isize
}

/// A system call that no kernel has, which the plugin sees.
fn mark(what: i64, name: usize) {
    unsafe {
        std::arch::asm!("syscall", inlateout("rax") MARK => _, in("rdi") what, in("rsi") name,
            out("rcx") _, out("r11") _);
    }
}

/// Makes one call TIMES times, each between marks, on what `prepare` makes.
fn measure<T, R>(name: usize, mut prepare: impl FnMut() -> T, call: impl Fn(&mut T) -> R) {
    for _ in 0..TIMES {
        let mut on = black_box(prepare());
        mark(START, name);
        let done = black_box(call(&mut on));
        mark(STOP, name);
        drop(done);
    }
}

fn load(file: &[u8]) -> Simulator {
    let Ok(flat) = FlattenComponent::new(engine::nested(&Drawing::new(records(file)), 0));
    let mut simulator = Simulator::new(flat);
    simulator.start(true);
    simulator
}

fn waiting(state: &mut SimState) -> usize {
    state.local_upd_list.len() + state.local_next_upd_list.len() + state.to_upd.len()
}

/// A simulator that has run until its lists are empty, and how many rounds that took.
fn settled(file: &[u8]) -> (Simulator, usize) {
    let mut simulator = load(file);
    for rounds in 1..=ROUNDS_MAX {
        simulator.pass(TIME);
        if simulator.state(waiting) == 0 {
            return (simulator, rounds);
        }
    }
    panic!("the drawing does not settle");
}

/// Settled, with all components listed.
fn idle(file: &[u8]) -> Simulator {
    let mut simulator = settled(file).0;
    simulator.state(|state| state.local_upd_list = (0..state.comp.components.len()).collect());
    simulator
}

fn measure_all(file: &[u8]) {
    let round = |simulator: &mut Simulator| simulator.pass(TIME);
    measure(1, || (), |_| assert!(plain::judge::judge(black_box(file)).is_ok()));
    measure(2, || (), |_| load(black_box(file)));
    measure(3, || load(file), round);
    measure(4, || idle(file), round);
    measure(5, || settled(file).0, round);
}

fn main() {
    let mut words = std::env::args().skip(1);
    let path = words.next().expect("usage: instructions FILE [TIME]");
    let file = &std::fs::read(path).expect("the drawing can be read")[..];
    measure(0, || (), |_| ());
    let (mut simulator, rounds) = match words.next() {
        None => {
            measure_all(file);
            settled(file)
        }
        Some(time) => {
            let time = time.parse().expect("a time");
            measure(3, || load(file), |simulator| simulator.pass(time));
            (load(file), 0)
        }
    };
    let [components, inputs, outputs, wires] = simulator.state(|state| {
        let parts = &state.comp.components;
        let inputs = parts.iter().map(|part| part.inputs.len()).sum();
        let outputs = parts.iter().map(|part| part.outputs.len()).sum();
        [parts.len(), inputs, outputs, state.comp.flat_conns.len()]
    });
    println!("components {components} inputs {inputs} outputs {outputs} wires {wires} rounds {rounds}");
}
