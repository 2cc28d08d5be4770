//! The slow engine's commands. They are about the kept file and the slow engine's own tables.
//!
//! Its plain coding, `plain::slow`, is held against another engine that is loaded from the same
//! file and gets the same calls: logix, or, where logix has not all kinds of the drawing, the
//! plain coding of the flat engine. Where the tables were changed by hand, or another file is kept
//! than the one that the other engine was loaded from, it is loaded anew and takes the tables'
//! ports and lists.

use super::{line, Program, TABLE_NAMES};
use crate::engine::Engine;
use crate::plain::calls::is_entered;
use crate::plain::drawing::{records, Drawing};
use crate::plain::judge::{words, Refusal, Verdict};
use crate::plain::running::{self, Way};
use crate::plain::slow::{self, Drawn};
use crate::tables::{Tables, FLAT, MOVED, SLOW};
use std::fmt::Debug;

/// The engine that the slow one is held against, with the file that it was loaded from.
pub struct Beside {
    file: Vec<u8>,
    other: Other,
}

enum Other {
    Logix(Engine),
    /// The flat engine's tables.
    Plain(Box<Tables>),
}

impl Other {
    /// As a load of the file leaves it.
    fn loaded(drawing: &Drawing) -> Other {
        if Engine::has_kinds_of(drawing) {
            return Other::Logix(Engine::of_drawing(drawing));
        }
        let mut flat = Tables::new();
        running::load(drawing, &mut flat);
        Other::Plain(Box::new(flat))
    }

    /// With the ports and the lists of the slow engine's tables, which are right for the drawing.
    fn taken(drawing: &Drawing, tables: &Tables) -> Other {
        if Engine::has_kinds_of(drawing) {
            return Other::Logix(Engine::of_slow(drawing, tables));
        }
        let mut flat = Tables::new();
        running::load(drawing, &mut flat);
        FLAT.into_iter().zip(SLOW).for_each(|(to, from)| flat.put(to, tables.used(from)));
        Other::Plain(Box::new(flat))
    }

    /// Writes ports and lists into the slow engine's tables.
    fn write(&mut self, tables: &mut Tables) {
        match self {
            Other::Logix(engine) => engine.write_state(tables, SLOW),
            Other::Plain(flat) => {
                FLAT.into_iter().zip(SLOW).for_each(|(from, to)| tables.put(to, flat.used(from)))
            }
        }
    }

    fn round(&mut self, time: u64) -> Vec<u64> {
        match self {
            Other::Logix(engine) => engine.round(time),
            Other::Plain(flat) => running::round(flat, time),
        }
    }

    fn edit(&mut self, way: Way, index: u16, number: u64) {
        match self {
            Other::Logix(engine) => engine.edit(way, index as usize, number),
            Other::Plain(flat) => running::edit(flat, way, index as u64, number),
        }
    }

    fn is_entered(&mut self, index: u16) -> bool {
        match self {
            Other::Logix(engine) => engine.is_entered(index as usize),
            Other::Plain(flat) => is_entered(flat, index),
        }
    }

    fn calm(&mut self) -> bool {
        match self {
            Other::Logix(engine) => engine.calm(),
            Other::Plain(flat) => running::calm(flat),
        }
    }
}

impl Program {
    pub(super) fn slow_load(&mut self, lines: &mut String) {
        let verdict = slow::load_verdict(&self.tables, &self.kept);
        if verdict.is_ok() {
            let drawing = Drawing::new(records(&self.kept));
            self.beside = Some(Beside { file: self.kept.clone(), other: Other::loaded(&drawing) });
            self.slow_change(|_| (), |drawn, tables| drawn.load(tables));
        }
        line(lines, "load", words(verdict));
    }

    pub(super) fn slow_round(&mut self, time: u64, lines: &mut String) {
        let verdict = slow::round_verdict(&self.tables, &self.kept);
        let bits = match verdict {
            Ok(()) => self.one_slow_round(time),
            Err(_) => vec![],
        };
        self.tables.lay(MOVED, &bits);
        line(lines, "round", words(verdict).into_iter().chain(bits));
    }

    fn one_slow_round(&mut self, time: u64) -> Vec<u64> {
        self.slow_change(|other| other.round(time), |drawn, tables| drawn.round(tables, time))
    }

    /// Where the tables are right, a component is driven exactly where a wire of the other engine
    /// enters it.
    pub(super) fn slow_edit(&mut self, way: Way, index: u16, number: u64) -> Verdict {
        let verdict = slow::edit_verdict(&self.tables, &self.kept, index, number);
        if let Ok(()) | Err(Refusal { number: 17..=19, .. }) = verdict {
            let driven = Drawn::new(&self.kept).is_driven(index);
            assert_eq!(self.other().is_entered(index), driven, "driven, in the slow engine and the other");
        }
        verdict?;
        self.slow_change(
            |other| other.edit(way, index, number),
            |drawn, tables| drawn.edit(tables, way, index as u64, number),
        );
        Ok(())
    }

    /// Rounds one by one, at least one unless the limit is 0, until one leaves calm.
    pub(super) fn slow_run(&mut self, time: u64, limit: u16, lines: &mut String) {
        let verdict = slow::run_verdict(&self.tables, &self.kept);
        let (mut rounds, mut evaluations, mut moved) = (0, 0, 0);
        while verdict.is_ok() && rounds < limit as u64 {
            let bits = self.one_slow_round(time);
            evaluations += bits.len() as u64;
            moved += bits.iter().map(|bits| bits.count_ones() as u64).sum::<u64>();
            rounds += 1;
            if self.slow_calm() {
                break;
            }
        }
        line(lines, "run", words(verdict).into_iter().chain([rounds, evaluations, moved]));
    }

    fn slow_calm(&mut self) -> bool {
        let calm = Drawn::new(&self.kept).calm(&self.tables);
        assert_eq!(self.other().calm(), calm, "calm, in the slow engine and the other");
        calm
    }

    pub(super) fn slow_state(&self, lines: &mut String) {
        if !self.tables.slow_counts_within() {
            return lines.push_str("counts past the tables\n");
        }
        for (name, table) in FLAT.into_iter().zip(SLOW) {
            line(lines, TABLE_NAMES[name], self.tables.used(table).iter().copied());
        }
    }

    /// The engine that the slow one is held against, as it is before a call on tables that are
    /// right for the kept file.
    fn other(&mut self) -> &mut Other {
        if self.beside.as_ref().is_none_or(|beside| beside.file != self.kept) {
            let drawing = Drawing::new(records(&self.kept));
            let other = Other::taken(&drawing, &self.tables);
            self.beside = Some(Beside { file: self.kept.clone(), other });
        }
        &mut self.beside.as_mut().expect("one is beside it").other
    }

    /// Does something to the slow engine's tables, in its plain coding and in the other engine,
    /// which must give the same.
    fn slow_change<T: Debug + PartialEq>(
        &mut self,
        other: impl FnOnce(&mut Other) -> T,
        plain: impl FnOnce(&Drawn, &mut Tables) -> T,
    ) -> T {
        let mut second = self.tables.clone();
        let given = plain(&Drawn::new(&self.kept), &mut second);
        let mut first = self.tables.clone();
        let beside = self.other();
        assert_eq!(other(beside), given, "what a change gives in the slow engine and the other");
        beside.write(&mut first);
        assert_eq!(first, second, "a change in the slow engine and the other");
        self.tables = first;
        given
    }
}
