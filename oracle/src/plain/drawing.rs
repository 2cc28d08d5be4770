//! The drawing file (the specification, "The drawing file"): its records, the children
//! and maps of each owner, and where a connection leads.

use super::kinds::Fields;

/// Bytes of a record.
pub const RECORD_BYTES: usize = 24;
/// Record kinds.
pub const COMPONENT: u8 = 1;
pub const CONNECTION: u8 = 2;
pub const INPUT_MAP: u8 = 3;
pub const OUTPUT_MAP: u8 = 4;
/// The greatest depth; the root's is 1.
pub const DEPTH_MAX: usize = 16;

/// One record's fields.
#[derive(Clone, Copy, Debug, PartialEq)]
pub struct Record {
    pub kind: u8,
    pub component_kind: u8,
    pub owner: u16,
    pub a: u16,
    pub b: u16,
    pub c: u16,
    pub d: u16,
    pub id: u32,
    pub parameter: u64,
}

impl Record {
    /// "Numbers are little-endian: byte 0 record kind; 1 component kind; .."
    pub fn read(bytes: &[u8; RECORD_BYTES]) -> Record {
        let half = |at: usize| u16::from_le_bytes([bytes[at], bytes[at + 1]]);
        let mut parameter = [0; 8];
        parameter.copy_from_slice(&bytes[16..24]);
        Record {
            kind: bytes[0],
            component_kind: bytes[1],
            owner: half(2),
            a: half(4),
            b: half(6),
            c: half(8),
            d: half(10),
            id: half(12) as u32 + half(14) as u32 * 65_536,
            parameter: u64::from_le_bytes(parameter),
        }
    }

    /// The bytes that `read` reads.
    pub fn bytes(&self) -> [u8; RECORD_BYTES] {
        let mut bytes = [0; RECORD_BYTES];
        bytes[0] = self.kind;
        bytes[1] = self.component_kind;
        let halves = [self.owner, self.a, self.b, self.c, self.d];
        for (place, half) in halves.iter().enumerate() {
            bytes[2 + 2 * place..4 + 2 * place].copy_from_slice(&half.to_le_bytes());
        }
        bytes[12..16].copy_from_slice(&self.id.to_le_bytes());
        bytes[16..24].copy_from_slice(&self.parameter.to_le_bytes());
        bytes
    }

    /// A component's fields: "A inputs, B outputs", C and parameter.
    pub fn fields(&self) -> Fields {
        Fields {
            kind: self.component_kind as u64,
            inputs: self.a as u64,
            outputs: self.b as u64,
            width: self.c as u64,
            parameter: self.parameter,
        }
    }

    pub fn is_composite(&self) -> bool {
        self.kind == COMPONENT && self.component_kind == 0
    }
}

/// All whole records of a file.
pub fn records(file: &[u8]) -> Vec<Record> {
    let whole = file.chunks_exact(RECORD_BYTES);
    whole.map(|bytes| Record::read(bytes.try_into().expect("24 bytes"))).collect()
}

/// A port: component number and port number.
pub type Port = (usize, usize);

/// The number that a record gives a component: "An id is not an index, and a child
/// number is neither".
#[derive(Clone, Copy, Debug, PartialEq)]
pub struct Id(pub u32);

/// Records with the children and maps of each owner. Any records have one; it
/// is what the document means once the checks up to 5 have passed.
pub struct Drawing {
    pub records: Vec<Record>,
    /// The components with that owner, "the root never counted".
    pub children: Vec<Vec<usize>>,
    /// The owner's records of kinds 2, 3 and 4, in file order.
    pub connections: Vec<Vec<Record>>,
    pub input_maps: Vec<Vec<Record>>,
    pub output_maps: Vec<Vec<Record>>,
}

impl Drawing {
    pub fn new(records: Vec<Record>) -> Drawing {
        let of_owners = |kind: u8| {
            let mut lists = vec![vec![]; records.len()];
            for record in records.iter().filter(|record| record.kind == kind) {
                if let Some(list) = lists.get_mut(record.owner as usize) {
                    list.push(*record);
                }
            }
            lists
        };
        let mut children = vec![vec![]; records.len()];
        for (number, record) in records.iter().enumerate().skip(1) {
            let owner = record.owner as usize;
            if record.kind == COMPONENT && owner < records.len() {
                children[owner].push(number);
            }
        }
        let (connections, input_maps) = (of_owners(CONNECTION), of_owners(INPUT_MAP));
        let output_maps = of_owners(OUTPUT_MAP);
        Drawing { records, children, connections, input_maps, output_maps }
    }

    /// The component of that number. Components come first, so a component's
    /// number is its record's position.
    pub fn component(&self, number: usize) -> Option<&Record> {
        self.records.get(number).filter(|record| record.kind == COMPONENT)
    }

    /// The component number of an owner's child.
    pub fn child(&self, owner: u16, child: u16) -> Option<usize> {
        self.children.get(owner as usize)?.get(child as usize).copied()
    }

    /// "A connection's source goes down through output maps to a primitive's output."
    /// The depth left falls with every step down.
    fn source(&self, (component, port): Port, depth_left: usize) -> Option<Port> {
        if !self.component(component)?.is_composite() {
            return Some((component, port));
        }
        let map = self.output_maps.get(component)?.get(port)?;
        let child = self.child(component as u16, map.a)?;
        self.source((child, map.b as usize), depth_left.checked_sub(1)?)
    }

    /// "Its target goes down through the input maps to every primitive input they
    /// reach, in map order, all that one map reaches before the next".
    fn targets(&self, (component, port): Port, depth_left: usize, reached: &mut Vec<Port>) {
        let Some(record) = self.component(component) else {
            return;
        };
        if !record.is_composite() {
            reached.push((component, port));
            return;
        }
        let Some(depth_left) = depth_left.checked_sub(1) else {
            return;
        };
        for map in self.input_maps[component].iter().filter(|map| map.a as usize == port) {
            if let Some(child) = self.child(component as u16, map.c) {
                self.targets((child, map.d as usize), depth_left, reached);
            }
        }
    }

    /// The primitive's output that an output is.
    pub fn source_below(&self, port: Port) -> Option<Port> {
        self.source(port, DEPTH_MAX)
    }

    /// The primitive's output that output `port` of the owner's child is.
    pub fn source_of(&self, owner: u16, child: u16, port: u16) -> Option<Port> {
        let component = self.child(owner, child)?;
        self.source_below((component, port as usize))
    }

    /// The wires that one connection gives, in order: source and target.
    pub fn wires_of(&self, connection: &Record) -> Vec<(Port, Port)> {
        let source = self.source_of(connection.owner, connection.a, connection.b);
        let to = self.child(connection.owner, connection.c);
        let (Some(source), Some(to)) = (source, to) else {
            return vec![];
        };
        let mut reached = vec![];
        self.targets((to, connection.d as usize), DEPTH_MAX, &mut reached);
        reached.into_iter().map(|target| (source, target)).collect()
    }
}
