//! Random drawings that are accepted, of every size up to the limits.

use super::random::Random;
use crate::plain::drawing::{Record, COMPONENT, CONNECTION, DEPTH_MAX, INPUT_MAP, OUTPUT_MAP};
use crate::plain::judge::{judge, COMPONENTS_MAX, RECORDS_MAX, SIDE_MAX};
use crate::plain::kinds::{fits, greatest, Fields, PERIOD_MAX, WIDTH_MAX};
use std::collections::HashSet;

/// A record with all fields 0 but its kind.
pub fn blank(kind: u8) -> Record {
    Record { kind, component_kind: 0, owner: 0, a: 0, b: 0, c: 0, d: 0, id: 0, parameter: 0 }
}

pub fn file_of(records: &[Record]) -> Vec<u8> {
    records.iter().flat_map(Record::bytes).collect()
}

/// What a drawing should be like.
#[derive(Clone, Copy)]
pub struct Profile {
    /// Components, the root included.
    pub components: usize,
    pub depth: usize,
    /// One child in so many is a composite.
    pub composite_in: u64,
    /// Whether gates and widths are large.
    pub wide: bool,
    /// Of ten inputs, how many are entered.
    pub density: u64,
    /// Whether the last components use up all inputs, or all outputs.
    pub fill_inputs: bool,
    pub fill_outputs: bool,
    /// Whether a chain of composites goes down to the depth.
    pub chain: bool,
    /// Whether kinds that move are more frequent.
    pub lively: bool,
    /// Of ten composites, how many have no input that reaches nothing.
    pub whole: u64,
    /// Whether there are Majority gates, which logix has none of.
    pub votes: bool,
}

/// A profile of any kind, small ones more often.
pub fn any_profile(random: &mut Random) -> Profile {
    let components = match random.below(10) {
        0 => 1,
        1..=3 => random.between(2, 7),
        4..=6 => random.between(5, 30),
        7 => random.between(20, 110),
        8 => random.between(100, 256),
        _ => 256,
    };
    let limits = components > 100;
    Profile {
        components: components as usize,
        depth: random.pick(&[2, 3, 4, 6, DEPTH_MAX as u64]) as usize,
        composite_in: random.pick(&[2, 3, 4, 8, 1000]),
        wide: random.once_in(3),
        density: random.pick(&[3, 6, 8, 9, 10]),
        fill_inputs: limits && random.once_in(3),
        fill_outputs: limits && random.once_in(3),
        chain: components > 16 && random.once_in(4),
        lively: random.once_in(2),
        whole: 0,
        votes: false,
    }
}

/// The same profile, with Majority gates in one drawing of so many.
pub fn voting(random: &mut Random, one_in: u64, profile: Profile) -> Profile {
    Profile { votes: random.once_in(one_in), ..profile }
}

/// A profile for running: kinds that move, most inputs entered, few tiny ones.
pub fn running_profile(random: &mut Random) -> Profile {
    let profile = any_profile(random);
    let least = random.pick(&[1, 5, 12, 30]);
    Profile {
        density: random.pick(&[7, 9, 10]),
        lively: !random.once_in(4),
        components: profile.components.max(least),
        ..profile
    }
}

/// A profile for looking: boxes in boxes, most of them with something behind each input.
pub fn boxes_profile(random: &mut Random) -> Profile {
    let profile = running_profile(random);
    Profile {
        components: profile.components.min(random.pick(&[6, 12, 12, 25, 60, COMPONENTS_MAX as u64]) as usize),
        depth: random.pick(&[3, 4, 6, DEPTH_MAX as u64, DEPTH_MAX as u64]) as usize,
        composite_in: random.pick(&[2, 2, 3, 4]),
        whole: random.pick(&[0, 5, 9, 10, 10]),
        ..profile
    }
}

/// An accepted drawing.
pub fn drawing(random: &mut Random, profile: Profile) -> Vec<Record> {
    let records = Drawer::new(random, profile).draw();
    assert_eq!(judge(&file_of(&records)), Ok(()), "a drawing made here is accepted");
    records
}

/// A component with all that it holds.
struct Node {
    record: Record,
    children: Vec<Node>,
    connections: Vec<Record>,
    input_maps: Vec<Record>,
    output_maps: Vec<Record>,
    /// The width of the inputs that an input reaches, none where it reaches nothing.
    input_widths: Vec<Option<u64>>,
    output_widths: Vec<u64>,
}

/// Draws one drawing and keeps count of what is left.
struct Drawer<'a> {
    random: &'a mut Random,
    profile: Profile,
    components: usize,
    inputs: usize,
    outputs: usize,
    records: usize,
    ids: HashSet<u32>,
    small_ids: bool,
    widths: Vec<u64>,
}

impl<'a> Drawer<'a> {
    fn new(random: &'a mut Random, profile: Profile) -> Drawer<'a> {
        let mut widths = vec![1, any_width(random)];
        widths.push(random.pick(&[2, 4, 8, 31, 32, 33, 48, 63, 64]));
        let small_ids = random.once_in(2);
        Drawer {
            random,
            profile,
            components: profile.components.min(COMPONENTS_MAX),
            inputs: SIDE_MAX,
            outputs: SIDE_MAX,
            records: RECORDS_MAX,
            ids: HashSet::new(),
            small_ids,
            widths,
        }
    }

    /// The records. A root may be a primitive.
    fn draw(mut self) -> Vec<Record> {
        let root = match self.random.below(30) {
            0 => self.primitive(),
            _ => self.composite(1),
        };
        let mut lists = [vec![], vec![], vec![], vec![]];
        emit(&root, 0, &mut lists);
        lists.concat()
    }

    /// An id that no component has yet: few and small ones, or any.
    fn id(&mut self) -> u32 {
        loop {
            let id = match (self.small_ids, self.random.below(16)) {
                (true, _) => self.random.below(300) as u32,
                (false, 0) => self.random.pick(&[0, 1, u32::MAX, u32::MAX - 1, 65_536]),
                (false, _) => self.random.any_size() as u32,
            };
            if self.ids.insert(id) {
                return id;
            }
        }
    }

    /// A composite at that depth; the root takes all components that are left.
    fn composite(&mut self, depth: usize) -> Node {
        self.components -= 1;
        self.records -= 1;
        let mut record = blank(COMPONENT);
        record.id = self.id();
        let wanted = match depth {
            1 => COMPONENTS_MAX,
            _ => self.random.between(0, 8) as usize,
        };
        let mut children = vec![];
        if depth < self.profile.depth {
            self.children(depth, wanted, &mut children);
        }
        let mut node = Node {
            record,
            children,
            connections: vec![],
            input_maps: vec![],
            output_maps: vec![],
            input_widths: vec![],
            output_widths: vec![],
        };
        self.outputs_of(&mut node);
        self.inputs_of(&mut node);
        node
    }

    fn children(&mut self, depth: usize, wanted: usize, children: &mut Vec<Node>) {
        if self.profile.chain && self.components > 0 {
            children.push(self.composite(depth + 1));
        }
        while children.len() < wanted && self.components > 0 {
            let composite = self.random.once_in(self.profile.composite_in);
            if composite || (self.nearly_full() && !self.fills()) {
                children.push(self.composite(depth + 1));
            } else {
                children.push(self.primitive());
            }
        }
    }

    /// Whether a primitive of any kind may have too many ports.
    fn nearly_full(&self) -> bool {
        self.inputs < 64 || self.outputs < 64
    }

    /// Whether a side is still to be filled.
    fn fills(&self) -> bool {
        self.outputs > 0 && (self.profile.fill_outputs || (self.profile.fill_inputs && self.inputs > 0))
    }

    /// A primitive that there is room for.
    fn primitive(&mut self) -> Node {
        let fields = self.fields();
        self.components -= 1;
        self.records -= 1;
        self.inputs -= fields.inputs as usize;
        self.outputs -= fields.outputs as usize;
        let mut record = blank(COMPONENT);
        record.id = self.id();
        record.component_kind = fields.kind as u8;
        (record.a, record.b) = (fields.inputs as u16, fields.outputs as u16);
        (record.c, record.parameter) = (fields.width as u16, fields.parameter);
        Node {
            record,
            children: vec![],
            connections: vec![],
            input_maps: vec![],
            output_maps: vec![],
            input_widths: vec![Some(fields.input_width()); fields.inputs as usize],
            output_widths: vec![fields.output_width(); fields.outputs as usize],
        }
    }

    /// Fields that bring the sides nearer to full.
    fn filling_fields(&mut self) -> Fields {
        let most = self.random.pick(&[32, 64]);
        let (inputs, outputs) = (self.inputs.min(64) as u64, self.outputs.min(most) as u64);
        let splitter = inputs > 0 && (self.outputs > self.inputs || !self.profile.fill_inputs);
        if self.profile.fill_outputs && splitter {
            row(10, 1, outputs, 0, outputs)
        } else if inputs > 0 {
            row(self.gate(), inputs, 1, 0, 0)
        } else {
            row(7, 0, 1, 0, 0)
        }
    }

    /// A kind of gate that may have many inputs.
    fn gate(&mut self) -> u64 {
        match self.profile.votes {
            true => self.random.pick(&[1, 2, 4, 5, 6, 15, 15]),
            false => self.random.pick(&[1, 2, 4, 5, 6]),
        }
    }

    /// Fields of any kind that there is room for.
    fn fields(&mut self) -> Fields {
        if self.fills() && (self.nearly_full() || self.random.once_in(2)) {
            return self.filling_fields();
        }
        let bits = self.bits();
        let kind = match self.profile.lively {
            true => self.random.pick(&[1, 2, 3, 3, 4, 4, 5, 5, 6, 6, 7, 7, 8, 9, 10, 11, 12, 12, 13]),
            false => self.random.between(1, 13),
        };
        let kind = if self.profile.votes && self.random.once_in(4) { 15 } else { kind };
        match kind {
            3 => row(3, 1, 1, 0, 0),
            kind @ (6 | 15) => row(kind, self.gate_inputs().max(1), 1, 0, 0),
            7 => row(7, 0, 1, 0, 0),
            kind @ (8 | 9) => row(kind, 1, 1, 0, bits),
            10 => row(10, 1, bits, 0, bits),
            11 => row(11, bits, 1, 0, bits),
            12 => row(12, 0, 1, 0, self.period()),
            13 => row(13, 0, 1, bits, self.const_value(bits)),
            kind => row(kind, self.gate_inputs(), 1, 0, 0),
        }
    }

    fn bits(&mut self) -> u64 {
        let palette = self.widths.clone();
        match self.random.below(8) {
            0 => any_width(self.random),
            _ => self.random.pick(&palette),
        }
    }

    fn gate_inputs(&mut self) -> u64 {
        match self.profile.wide {
            true => self.random.pick(&[0, 1, 2, 3, 7, 16, 33, 64]),
            false => self.random.pick(&[0, 1, 1, 2, 2, 2, 3, 4]),
        }
    }

    fn period(&mut self) -> u64 {
        match self.random.below(4) {
            0 => self.random.pick(&[1, PERIOD_MAX, PERIOD_MAX - 1]),
            1 => self.random.any_size().clamp(1, PERIOD_MAX),
            _ => self.random.between(1, 12),
        }
    }

    fn const_value(&mut self, width: u64) -> u64 {
        let value = match self.random.below(3) {
            0 => greatest(width),
            _ => self.random.any() & greatest(width),
        };
        assert!(fits(value, width));
        value
    }

    /// Output maps from any outputs of the children.
    fn outputs_of(&mut self, node: &mut Node) {
        let inner = outputs_below(node);
        let wanted = match (self.profile.wide, self.random.below(4)) {
            (true, 0) => 64,
            _ => self.random.between(0, 4),
        };
        while node.output_widths.len() < wanted as usize
            && !inner.is_empty()
            && self.records > self.components
        {
            let (child, port, width) = self.random.pick(&inner);
            node.output_maps.push(Record { a: child, b: port, ..blank(OUTPUT_MAP) });
            node.output_widths.push(width);
            self.records -= 1;
        }
        node.record.b = node.output_widths.len() as u16;
    }

    /// Enters the children's inputs, in any order, from the composite's own
    /// inputs or from the children's outputs, or not at all.
    fn inputs_of(&mut self, node: &mut Node) {
        let wanted = match (self.profile.wide, self.random.below(4)) {
            (true, 0) => 64,
            _ => self.random.between(0, 4),
        };
        node.record.a = wanted as u16;
        node.input_widths = vec![None; wanted as usize];
        let outputs = outputs_below(node);
        let mut open = inputs_below(node);
        while !open.is_empty() && self.records > self.components {
            let (child, port, width) = open.swap_remove(self.random.below(open.len() as u64) as usize);
            if self.random.below(10) >= self.profile.density {
                continue;
            }
            if wanted > 0 && self.random.once_in(3) {
                self.map_input(node, (child, port), width);
            } else {
                self.connect(node, &outputs, (child, port), width);
            }
        }
        if self.profile.whole > 0 && self.random.below(10) < self.profile.whole {
            self.records += drop_dangling(node);
        }
    }

    /// An input map, unless the owner's input already reaches another width.
    fn map_input(&mut self, node: &mut Node, (child, port): (u16, u16), width: Option<u64>) {
        let own = self.random.below(node.record.a as u64) as usize;
        let reached = &mut node.input_widths[own];
        if reached.is_some() && width.is_some() && *reached != width {
            return;
        }
        *reached = reached.or(width);
        node.input_maps.push(Record { a: own as u16, c: child, d: port, ..blank(INPUT_MAP) });
        self.records -= 1;
    }

    /// A connection from an output of that width; from any where nothing is reached.
    fn connect(
        &mut self,
        node: &mut Node,
        outputs: &[(u16, u16, u64)],
        (child, port): (u16, u16),
        width: Option<u64>,
    ) {
        let agree = |(_, _, output): &&(u16, u16, u64)| width.is_none_or(|input| input == *output);
        let fitting: Vec<_> = outputs.iter().filter(agree).copied().collect();
        if fitting.is_empty() {
            return;
        }
        let (from, out, _) = self.random.pick(&fitting);
        node.connections.push(Record { a: from, b: out, c: child, d: port, ..blank(CONNECTION) });
        self.records -= 1;
    }
}

/// Any width, those up to 32 bits three times as likely as the others.
fn any_width(random: &mut Random) -> u64 {
    let most = random.pick(&[32, WIDTH_MAX]);
    random.between(1, most)
}

fn row(kind: u64, inputs: u64, outputs: u64, width: u64, parameter: u64) -> Fields {
    Fields { kind, inputs, outputs, width, parameter }
}

/// Takes the inputs that reach nothing from a composite, with their maps: how many maps.
fn drop_dangling(node: &mut Node) -> usize {
    let reaching: Vec<usize> =
        (0..node.input_widths.len()).filter(|at| node.input_widths[*at].is_some()).collect();
    let before = node.input_maps.len();
    let moved = |map: &Record| reaching.iter().position(|at| *at == map.a as usize);
    node.input_maps =
        node.input_maps.iter().filter_map(|map| Some(Record { a: moved(map)? as u16, ..*map })).collect();
    node.input_widths.retain(Option::is_some);
    node.record.a = node.input_widths.len() as u16;
    before - node.input_maps.len()
}

/// Child, port and width of every output of the children.
fn outputs_below(node: &Node) -> Vec<(u16, u16, u64)> {
    let mut all = vec![];
    for (child, below) in node.children.iter().enumerate() {
        for (port, width) in below.output_widths.iter().enumerate() {
            all.push((child as u16, port as u16, *width));
        }
    }
    all
}

/// Child, port and reached width of every input of the children.
fn inputs_below(node: &Node) -> Vec<(u16, u16, Option<u64>)> {
    let mut all = vec![];
    for (child, below) in node.children.iter().enumerate() {
        for (port, width) in below.input_widths.iter().enumerate() {
            all.push((child as u16, port as u16, *width));
        }
    }
    all
}

/// Appends a component, then what it owns, then its children: owners ascend.
fn emit(node: &Node, owner: u16, lists: &mut [Vec<Record>; 4]) {
    let number = lists[0].len() as u16;
    lists[0].push(Record { owner, ..node.record });
    for (list, own) in [(1, &node.connections), (2, &node.input_maps), (3, &node.output_maps)] {
        lists[list].extend(own.iter().map(|record| Record { owner: number, ..*record }));
    }
    for child in &node.children {
        emit(child, number, lists);
    }
}
