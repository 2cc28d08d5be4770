//! The program: it owns the tables, takes commands and prints lines.
//!
//! The numbers given back come from `plain`. All else comes from logix, and `plain` works
//! it out a second time: the program stops where the two differ. Where a component's kind
//! is none of logix's, and in mending, `plain` is alone. The slow engine has a part of its own.

mod slow;

use crate::command::{Command, Single, FILE_KEPT};
use crate::engine::Engine;
use crate::io::{Channel, Stop};
use crate::plain::calls::{edit_number, index_number, load_verdict, neighbours_number};
use crate::plain::calls::{net_number, ordered_number, round_number, value_number};
use crate::plain::drawing::{records, Drawing, Id};
use crate::plain::host::{first_answer, second_answer};
use crate::plain::judge::{judge, words, Refusal};
use crate::plain::look::{look, Shown};
use crate::plain::mend::{mend, Mended};
use crate::plain::rules::{moved, outputs_after};
use crate::plain::running::{self, Judged, Way};
use crate::plain::single::{single_number, PortValue};
use crate::primitive::{evaluated, in_logix};
use crate::tables::{Tables, ANSWER, COMPONENTS, CURRENT, DROPPED, FLAT, INPUTS, MENDED, MOVED};
use crate::tables::{NUMBERS, OUTPUTS, SLOW, STANDING, WIDTHS, WIRES};
use slow::Beside;
use std::fmt::{Debug, Write as _};
use std::io::{Read, Result, Write};

/// Commands are read until the input ends or this many have been read.
const COMMANDS_MAX: u64 = 1 << 32;
/// The words that begin the lines of `A`.
const TABLE_NAMES: [&str; 7] =
    ["components", "inputs", "outputs", "wires", "current", "following", "standing"];

/// Tables that calls have reached from a load.
#[derive(Clone, Copy)]
struct Reached {
    /// The time of the last round, where one has run.
    last_round: Option<u64>,
}

pub struct Program {
    pub tables: Tables,
    /// logix's side of the tables; none where they were changed by hand.
    engine: Option<Engine>,
    /// What calls have made of a load's tables; none where they were changed by hand.
    reached: Option<Reached>,
    /// What the slow engine is held against; none where its tables were changed by hand.
    beside: Option<Beside>,
    /// The file that looks, mending and the slow engine are handed.
    pub kept: Vec<u8>,
}

/// Reads commands and prints their lines until the input ends or is bad.
pub fn run(input: impl Read, output: impl Write) -> Result<()> {
    let mut channel = Channel::new(input, output);
    let mut program = Program::new();
    let mut lines = String::new();
    for _ in 0..COMMANDS_MAX {
        if channel.at_end()? {
            break;
        }
        match Command::read(&mut channel) {
            Ok(command) => program.answer(&command, &mut lines),
            Err(Stop::Io(error)) => return Err(error),
            Err(Stop::Bad) => {
                channel.write("bad command\n")?;
                break;
            }
        }
        channel.write(&lines)?;
        lines.clear();
    }
    channel.flush()
}

impl Program {
    pub fn new() -> Program {
        Program { tables: Tables::new(), engine: None, reached: None, beside: None, kept: vec![] }
    }

    /// Does one command and appends its lines.
    pub fn answer(&mut self, command: &Command, lines: &mut String) {
        match command {
            Command::Judge(file) => line(lines, "judge", words(judge(file))),
            Command::Host(file) => line(lines, "host", [first_answer(file), second_answer(file)]),
            Command::Load(file) => self.load(file, lines),
            Command::Net => self.net(lines),
            Command::State => self.state(lines),
            Command::All => self.all(lines),
            Command::Round { time } => self.round(*time, lines),
            Command::RoundOrdered { time } => self.round_ordered(*time, lines),
            Command::Edit { index, number } => {
                let refused = self.edit(Way::Standing, *index, *number);
                line(lines, "edit", [refused, 0]);
            }
            Command::EditFirst { index, number } => {
                let refused = self.edit(Way::First, *index, *number);
                line(lines, "first", [refused, 0]);
            }
            Command::Run { time, limit } => self.run_until_calm(*time, *limit, lines),
            Command::Calm => self.calm(lines),
            Command::Satisfied => self.satisfied(lines),
            Command::Index { id } => self.index(*id, lines),
            Command::Value { side, index, port } => self.value(*side, *index, *port, lines),
            Command::Sources { index } => {
                self.neighbours("sources", *index, Engine::sources, running::sources, lines)
            }
            Command::Targets { index } => {
                self.neighbours("targets", *index, Engine::targets, running::targets, lines)
            }
            Command::Evaluate(single) => evaluate(single, lines),
            Command::WriteWord { table, place, word } => {
                self.by_hand(*table as usize);
                self.tables.write_word(*table as usize, *place as usize, *word);
            }
            Command::SetCount { which, number } => {
                self.by_hand(*which as usize);
                self.tables.set_count(*which as usize, *number);
            }
            Command::Lend { table, words } => self.tables.lend(*table as usize, *words as usize),
            Command::Keep(file) => self.kept = file[..file.len().min(FILE_KEPT)].to_vec(),
            Command::Table { table } => self.table(*table as usize, lines),
            Command::WriteWords { table, place, words } => {
                self.by_hand(*table as usize);
                for (at, word) in words.iter().enumerate() {
                    self.tables.write_word(*table as usize, *place as usize + at, *word);
                }
            }
            Command::Look { path } => self.look(path, lines),
            Command::Mend => self.mend(lines),
            Command::SlowLoad => self.slow_load(lines),
            Command::SlowRound { time } => self.slow_round(*time, lines),
            Command::SlowEdit { index, number } => {
                let verdict = self.slow_edit(Way::Standing, *index, *number);
                line(lines, "edit", words(verdict));
            }
            Command::SlowEditFirst { index, number } => {
                let verdict = self.slow_edit(Way::First, *index, *number);
                line(lines, "first", words(verdict));
            }
            Command::SlowRun { time, limit } => self.slow_run(*time, *limit, lines),
            Command::SlowState => self.slow_state(lines),
        }
    }

    /// A table, or its count, is changed by hand. What is no table of an engine plays no part.
    fn by_hand(&mut self, table: usize) {
        if SLOW.contains(&table) {
            self.beside = None;
        } else if table <= STANDING {
            self.engine = None;
            self.reached = None;
        }
    }

    /// logix's side of the tables, which are a net; none where logix has not all kinds.
    fn engine(&mut self) -> Option<&mut Engine> {
        let tables = &self.tables;
        if self.engine.is_none() && Engine::has_kinds_in(tables) {
            self.engine = Some(Engine::of_tables(tables));
        }
        self.engine.as_mut()
    }

    fn load(&mut self, file: &[u8], lines: &mut String) {
        let verdict = load_verdict(&self.tables, file);
        if verdict.is_ok() {
            let drawing = Drawing::new(records(file));
            let mut second = self.tables.clone();
            running::load(&drawing, &mut second);
            self.engine = Engine::has_kinds_of(&drawing).then(|| Engine::of_drawing(&drawing));
            match &mut self.engine {
                Some(engine) => engine.write_net(&mut self.tables),
                None => self.tables = second.clone(),
            }
            assert_eq!(self.tables, second, "a load in both codings");
            self.reached = Some(Reached { last_round: None });
        }
        line(lines, "load", words(verdict));
    }

    fn round(&mut self, time: u64, lines: &mut String) {
        let number = round_number(&self.tables);
        let bits = match number {
            0 => self.one_round(time),
            _ => vec![],
        };
        self.tell_round(number, bits, lines);
    }

    fn round_ordered(&mut self, time: u64, lines: &mut String) {
        let number = ordered_number(&self.tables);
        let bits = match number {
            0 => self.one_round_ordered(time),
            _ => vec![],
        };
        self.tell_round(number, bits, lines);
    }

    /// Lays the bits of a round over their table, and says them.
    fn tell_round(&mut self, number: u64, bits: Vec<u64>, lines: &mut String) {
        self.tables.lay(MOVED, &bits);
        line(lines, "round", [number, 0].into_iter().chain(bits));
    }

    /// A round: the bits of each component evaluated.
    fn one_round(&mut self, time: u64) -> Vec<u64> {
        self.round_at(time, |engine| engine.round(time), |tables| running::round(tables, time))
    }

    /// The same in the order of wires.
    fn one_round_ordered(&mut self, time: u64) -> Vec<u64> {
        let order = self.tables.order().to_vec();
        self.round_at(
            time,
            |engine| engine.round_ordered(&order, time),
            |tables| running::round_ordered(tables, time),
        )
    }

    /// A round in both codings, and that it has run.
    fn round_at(
        &mut self,
        time: u64,
        logix: impl FnOnce(&mut Engine) -> Vec<u64>,
        plain: impl FnOnce(&mut Tables) -> Vec<u64>,
    ) -> Vec<u64> {
        let bits = self.change(logix, plain);
        if let Some(reached) = &mut self.reached {
            reached.last_round = Some(time);
        }
        bits
    }

    /// Does something to a net, the tables included, in both codings, which must give the same.
    fn change<T: Debug + PartialEq>(
        &mut self,
        logix: impl FnOnce(&mut Engine) -> T,
        plain: impl FnOnce(&mut Tables) -> T,
    ) -> T {
        let mut second = self.tables.clone();
        let given = plain(&mut second);
        match self.engine() {
            Some(engine) => {
                assert_eq!(logix(engine), given, "what a change gives in both codings");
                if let Some(engine) = &mut self.engine {
                    engine.write_state(&mut self.tables, FLAT);
                }
            }
            None => self.tables = second.clone(),
        }
        assert_eq!(self.tables, second, "a change in both codings");
        given
    }

    /// Asks something of a net, in both codings.
    fn ask<T: Debug + PartialEq>(
        &mut self,
        logix: impl FnOnce(&mut Engine) -> T,
        plain: impl FnOnce(&Tables) -> T,
    ) -> T {
        let second = plain(&self.tables);
        if let Some(engine) = self.engine() {
            assert_eq!(logix(engine), second, "a question in both codings");
        }
        second
    }

    /// An edit: the number that it gives.
    fn edit(&mut self, way: Way, index: u16, number: u64) -> u64 {
        let refused = edit_number(&self.tables, index, number);
        if refused == 0 {
            self.change(
                |engine| engine.edit(way, index as usize, number),
                |tables| running::edit(tables, way, index as u64, number),
            );
        }
        refused
    }

    /// Rounds one by one, at least one unless the limit is 0, until one leaves calm.
    fn run_until_calm(&mut self, time: u64, limit: u16, lines: &mut String) {
        let number = net_number(&self.tables);
        let (mut rounds, mut evaluations, mut moved) = (0, 0, 0);
        while number == 0 && rounds < limit as u64 {
            evaluations += self.ask(Engine::current_length, |tables| tables.counts[CURRENT]);
            let bits = self.one_round(time);
            moved += bits.iter().map(|bits| bits.count_ones() as u64).sum::<u64>();
            rounds += 1;
            if self.ask(Engine::calm, running::calm) {
                break;
            }
        }
        line(lines, "run", [number, rounds, evaluations, moved]);
    }

    fn calm(&mut self, lines: &mut String) {
        let number = net_number(&self.tables);
        let calm = number == 0 && self.ask(Engine::calm, running::calm);
        line(lines, "calm", [number, calm as u64]);
    }

    /// The named ones are judged. In tables that calls have reached from a load the answer is
    /// that of judging all, and after a round that of judging the Clocks at its time as well.
    fn satisfied(&mut self, lines: &mut String) {
        let number = net_number(&self.tables);
        let satisfied = number == 0 && self.judge_values(Judged::Named);
        if let (0, Some(Reached { last_round })) = (number, self.reached) {
            let all = self.judge_values(Judged::All);
            assert_eq!(satisfied, all, "judging what the lists name, and judging all");
            let clocks = last_round.map_or(true, |time| running::clocks_follow(&self.tables, time));
            assert_eq!(satisfied, all && clocks, "satisfied, Clocks at the last round's time");
        }
        line(lines, "satisfied", [number, satisfied as u64]);
    }

    fn judge_values(&mut self, judged: Judged) -> bool {
        self.ask(|engine| engine.satisfied(judged), |tables| running::satisfied(tables, judged))
    }

    fn index(&mut self, id: u32, lines: &mut String) {
        let number = index_number(&self.tables, id);
        let index = match number {
            0 => self.ask(|engine| engine.index_of(id), |tables| running::index_of(tables, id)),
            _ => 0,
        };
        line(lines, "index", [number, index]);
    }

    fn value(&mut self, side: u8, index: u16, port: u16, lines: &mut String) {
        let number = value_number(&self.tables, side, index, port);
        let (value, width) = match number {
            0 => self.ask(
                |engine| engine.value(side, index as usize, port as usize),
                |tables| running::value(tables, side, index as u64, port as u64),
            ),
            _ => (0, 0),
        };
        line(lines, "value", [number, value, width]);
    }

    fn neighbours(
        &mut self,
        word: &str,
        index: u16,
        logix: fn(&mut Engine, usize) -> Vec<u64>,
        plain: fn(&Tables, u64) -> Vec<u64>,
        lines: &mut String,
    ) {
        let number = neighbours_number(&self.tables, index);
        let found = match number {
            0 => self.ask(|engine| logix(engine, index as usize), |tables| plain(tables, index as u64)),
            _ => vec![],
        };
        self.tables.lay(ANSWER, &found);
        line(lines, word, std::iter::once(number).chain(found));
    }

    /// The plain coding says whether the look is refused; what it shows is logix's, too.
    fn look(&mut self, path: &[Id], lines: &mut String) {
        let shown = match look(&self.tables, &self.kept, path) {
            Ok(shown) => shown,
            Err(refusal) => return line(lines, "look", refusal.words().into_iter().chain([0, 0])),
        };
        self.hold_look(path, &shown);
        let ports: Vec<_> = shown.inputs.iter().chain(&shown.outputs).collect();
        self.tables.lay(NUMBERS, &ports.iter().map(|port| port.number).collect::<Vec<u64>>());
        self.tables.lay(WIDTHS, &ports.iter().map(|port| port.width).collect::<Vec<u64>>());
        let head = [0, 0, 0, shown.inputs.len() as u64, shown.outputs.len() as u64];
        line(lines, "look", head.into_iter().chain(ports.iter().flat_map(|port| [port.number, port.width])));
    }

    /// Holds what the plain coding shows against what logix does, where it has all kinds.
    fn hold_look(&self, path: &[Id], shown: &Shown) {
        let drawing = Drawing::new(records(&self.kept));
        if Engine::has_kinds_of(&drawing) {
            assert_eq!(Engine::look(&drawing, &self.tables, path), *shown, "a look in both codings");
        }
    }

    /// Three lines; the last two are their word alone where the mending is refused. logix has
    /// nothing like it: the plain coding is alone.
    fn mend(&mut self, lines: &mut String) {
        let (head, bytes, dropped) = match mend(&self.tables, &self.kept) {
            Ok(Mended { bytes, dropped }) => ([0, 0], bytes, dropped),
            Err(Refusal { number, position, earlier }) => {
                assert_eq!(earlier, 0, "after mending no two records meet");
                ([number, position], vec![], vec![])
            }
        };
        let bytes: Vec<u64> = bytes.into_iter().map(u64::from).collect();
        let dropped: Vec<u64> = dropped.iter().map(|(position, _)| *position as u64).collect();
        self.tables.lay(MENDED, &bytes);
        self.tables.lay(DROPPED, &dropped);
        line(lines, "mend", head.into_iter().chain([bytes.len() as u64, dropped.len() as u64]));
        line(lines, "dropped", dropped);
        line(lines, "bytes", bytes);
    }

    fn net(&self, lines: &mut String) {
        if !self.tables.counts_within() {
            return lines.push_str("counts past the tables\n");
        }
        line(lines, "net", [COMPONENTS, INPUTS, OUTPUTS, WIRES].map(|table| self.tables.counts[table]));
        for words in self.tables.used(COMPONENTS).chunks_exact(8) {
            line(lines, "component", words.iter().copied());
        }
        for words in self.tables.used(WIRES).chunks_exact(4) {
            line(lines, "wire", words.iter().copied());
        }
    }

    fn state(&self, lines: &mut String) {
        if !self.tables.counts_within() {
            return lines.push_str("counts past the tables\n");
        }
        for table in FLAT {
            line(lines, TABLE_NAMES[table], self.tables.used(table).iter().copied());
        }
    }

    fn all(&self, lines: &mut String) {
        for (name, words) in TABLE_NAMES.iter().zip(&self.tables.words) {
            line(lines, name, words.iter().copied());
        }
    }

    fn table(&self, table: usize, lines: &mut String) {
        match self.tables.words.get(table) {
            Some(words) => line(lines, "table", std::iter::once(table as u64).chain(words.iter().copied())),
            None => lines.push_str("no table\n"),
        }
    }
}

/// `evaluate N BITS V V ..`: where refused, 0 and the numbers that came in.
fn evaluate(single: &Single, lines: &mut String) {
    let number = single_number(&single.fields, &single.inputs, &single.outputs);
    let mut outputs: Vec<u64> = single.outputs.iter().map(|value| value.number).collect();
    let mut bits = 0;
    if number == 0 {
        let own = |values: &[PortValue], ports: u64| -> Vec<u64> {
            values[..ports as usize].iter().map(|value| value.number).collect()
        };
        let fields = &single.fields;
        let (own_inputs, own_outputs) =
            (own(&single.inputs, fields.inputs), own(&single.outputs, fields.outputs));
        let new = outputs_after(fields, &own_inputs, &own_outputs, single.time);
        bits = moved(&own_outputs, &new);
        outputs[..new.len()].copy_from_slice(&new);
        if in_logix(fields) {
            assert_eq!(evaluated(single), (new, bits), "an evaluation in both codings");
        }
    }
    line(lines, "evaluate", [number, bits].into_iter().chain(outputs));
}

/// One line: a word, then numbers, separated by single blanks.
fn line(lines: &mut String, word: &str, numbers: impl IntoIterator<Item = u64>) {
    lines.push_str(word);
    for number in numbers {
        let _ = write!(lines, " {number}");
    }
    lines.push('\n');
}
