//! logix at work: from a drawing or from the tables to a `Simulator`, and back
//! into the tables.

use crate::plain::drawing::{Drawing, Id};
use crate::plain::flat::is_primitive;
use crate::plain::look::Shown;
use crate::plain::net::{entries, Entry};
use crate::plain::running::{Judged, Way};
use crate::plain::single::PortValue;
use crate::primitive::{bits_between, in_logix, kind_words, primitive};
use crate::tables::{
    Five, Tables, COMPONENTS, CURRENT, FLAT, FOLLOWING, INPUTS, OUTPUTS, SLOW, STANDING, WIRES,
};
use logix::component::{Component, ComponentBuilder, Conn};
use logix::flatten::FlattenComponent;
use logix::primitives::primitive::{ExtraInfo, Primitive, PrimitiveComponent};
use logix::simulator::{SimState, Simulator, Watch};
use logix::Data;

pub struct Engine {
    simulator: Simulator,
}

/// The outputs of each component that a pass updates, before its update and after.
struct Watched {
    befores: Vec<Vec<Data>>,
    afters: Vec<Vec<Data>>,
}

impl Watch for Watched {
    fn before(&mut self, outputs: &[Data]) {
        self.befores.push(outputs.to_vec());
    }

    fn after(&mut self, outputs: &[Data]) {
        self.afters.push(outputs.to_vec());
    }
}

/// The nested component that a drawing's component draws. Where an input is
/// entered twice, logix's `build` panics.
pub fn nested(drawing: &Drawing, number: usize) -> Component<ExtraInfo> {
    let record = &drawing.records[number];
    let id = record.id as usize;
    let builder = ComponentBuilder::new(id).port_count(record.a as usize, record.b as usize);
    if !record.is_composite() {
        return builder.extra(ExtraInfo::from_primitive(id, primitive(&record.fields()))).build();
    }
    let children = drawing.children[number].iter().map(|child| nested(drawing, *child));
    let connections = drawing.connections[number].iter();
    let input_maps = drawing.input_maps[number].iter();
    let output_maps = drawing.output_maps[number].iter();
    builder
        .extra(ExtraInfo::new(id))
        .sub_comps(children.collect())
        .connections(connections.map(|r| conn(r.a, r.b, r.c, r.d)).collect())
        .in_addrs(input_maps.map(|r| (r.a as usize, (r.c as usize, r.d as usize))).collect())
        .out_addrs(output_maps.map(|r| (r.a as usize, r.b as usize)).collect())
        .build()
}

fn conn(from: impl Into<u64>, out: impl Into<u64>, to: impl Into<u64>, port: impl Into<u64>) -> Conn {
    let [from, out, to, port] = [from.into(), out.into(), to.into(), port.into()].map(|n| n as usize);
    Conn::new(from, out, to, port)
}

impl Engine {
    /// logix's simulator of a component, before its first pass.
    fn start(component: Component<ExtraInfo>) -> Engine {
        let Ok(flat) = FlattenComponent::new(component);
        let mut simulator = Simulator::new(flat);
        simulator.start(true);
        Engine { simulator }
    }

    /// Whether logix has the kinds of a drawing's components.
    pub fn has_kinds_of(drawing: &Drawing) -> bool {
        drawing.records.iter().filter(|record| is_primitive(record)).all(|record| in_logix(&record.fields()))
    }

    /// Whether logix has the kinds of a net's components.
    pub fn has_kinds_in(tables: &Tables) -> bool {
        entries(tables).iter().all(|entry| in_logix(&entry.fields))
    }

    /// The engine of an accepted drawing.
    pub fn of_drawing(drawing: &Drawing) -> Engine {
        Engine::start(nested(drawing, 0))
    }

    /// The engine of tables that are a net: one composite that holds all
    /// components, with the wires as its connections, then values and lists.
    pub fn of_tables(tables: &Tables) -> Engine {
        let entries = entries(tables);
        let children = entries.iter().map(child).collect();
        let wires = tables.used(WIRES).chunks_exact(4);
        let connections = wires.map(|wire| conn(wire[0], wire[1], wire[2], wire[3])).collect();
        let root = ComponentBuilder::new(usize::MAX).sub_comps(children).connections(connections);
        let mut engine = Engine::start(root.build());
        engine.take_values(tables);
        engine.take_lists(tables, [CURRENT, FOLLOWING, STANDING]);
        engine
    }

    /// The engine of an accepted drawing, with the slow engine's ports and lists, which are right
    /// for it. Its components have as many ports as the tables, in the same order.
    pub fn of_slow(drawing: &Drawing, tables: &Tables) -> Engine {
        let [inputs, outputs, current, following, standing] = SLOW;
        let (mut entering, mut leaving) = (tables.used(inputs), tables.used(outputs));
        let mut engine = Engine::of_drawing(drawing);
        engine.simulator.state(|state| {
            for component in &mut state.comp.components {
                put_values(&mut component.inputs, entering);
                put_values(&mut component.outputs, leaving);
                entering = &entering[component.inputs.len()..];
                leaving = &leaving[component.outputs.len()..];
            }
        });
        engine.take_lists(tables, [current, following, standing]);
        engine
    }

    /// Takes the values of tables that hold the engine's components.
    fn take_values(&mut self, tables: &Tables) {
        self.simulator.state(|state| {
            for (component, entry) in state.comp.components.iter_mut().zip(entries(tables)) {
                put_values(&mut component.inputs, &tables.used(INPUTS)[entry.first_input as usize..]);
                put_values(&mut component.outputs, &tables.used(OUTPUTS)[entry.first_output as usize..]);
            }
        });
    }

    /// Takes the three lists.
    fn take_lists(&mut self, tables: &Tables, [current, following, standing]: [usize; 3]) {
        self.simulator.state(|state| {
            state.local_upd_list = list(tables, current);
            state.local_next_upd_list = list(tables, following);
            state.to_upd = list(tables, standing);
        });
    }

    /// What `get_status` shows of a drawing's box with the values of tables that
    /// match the drawing. The path leads to a component.
    pub fn look(drawing: &Drawing, tables: &Tables, path: &[Id]) -> Shown {
        let mut engine = Engine::of_drawing(drawing);
        engine.take_values(tables);
        let ids: Vec<usize> = path.iter().map(|Id(id)| *id as usize).collect();
        let status = engine.simulator.state(|state| state.comp.get_status(&ids, None));
        let (inputs, outputs) = status.expect("the path leads to a component");
        Shown { inputs: port_values(&inputs), outputs: port_values(&outputs) }
    }

    /// Writes components, wires, values and lists.
    pub fn write_net(&mut self, tables: &mut Tables) {
        self.simulator.state(|state| {
            tables.put(COMPONENTS, &component_words(&state.comp.components));
            let wires = state.comp.flat_conns.iter();
            let words = wires.flat_map(|wire| [wire.from.0, wire.from.1, wire.to.0, wire.to.1]);
            tables.put(WIRES, &words.map(|word| word as u64).collect::<Vec<u64>>());
        });
        self.write_state(tables, FLAT);
    }

    /// Writes values and lists into the tables of one of the two engines.
    pub fn write_state(
        &mut self,
        tables: &mut Tables,
        [inputs, outputs, current, following, standing]: Five,
    ) {
        self.simulator.state(|state| {
            let components = &state.comp.components;
            let number = |data: &Data| data.value as u64;
            let entering: Vec<u64> = components.iter().flat_map(|c| c.inputs.iter().map(number)).collect();
            let leaving: Vec<u64> = components.iter().flat_map(|c| c.outputs.iter().map(number)).collect();
            tables.put(inputs, &entering);
            tables.put(outputs, &leaving);
            tables.put(current, &list_words(&state.local_upd_list));
            tables.put(following, &list_words(&state.local_next_upd_list));
            tables.put(standing, &list_words(&state.to_upd));
        });
    }

    /// One pass of logix's loop: the bits of each component updated.
    pub fn round(&mut self, time: u64) -> Vec<u64> {
        let mut watched = Watched { befores: vec![], afters: vec![] };
        self.simulator.watched_pass(time as u128, &mut watched);
        let updates = watched.befores.iter().zip(&watched.afters);
        updates.map(|(before, after)| bits_between(before, after)).collect()
    }

    /// Added: a pass in which each component's connections stand in the order of all wires that is
    /// handed in, where logix would shuffle them; afterwards they stand as they did.
    pub fn round_ordered(&mut self, order: &[u64], time: u64) -> Vec<u64> {
        let stored = self.simulator.state(|state| {
            let mut ordered = vec![vec![]; state.comp.connections.len()];
            for wire in order {
                let conn = state.comp.flat_conns[*wire as usize];
                ordered[conn.from.0].push(conn);
            }
            std::mem::replace(&mut state.comp.connections, ordered)
        });
        let bits = self.round(time);
        self.simulator.state(|state| state.comp.connections = stored);
        bits
    }

    /// How many components the next round evaluates.
    pub fn current_length(&mut self) -> u64 {
        self.simulator.state(|state| state.local_upd_list.len() as u64)
    }

    /// Added: all three lists name only Clocks.
    pub fn calm(&mut self) -> bool {
        self.simulator.state(|state| {
            let clock =
                |index: &usize| matches!(state.comp.components[*index].prim_type, Primitive::Clock { .. });
            let lists = [&state.local_upd_list, &state.local_next_upd_list, &state.to_upd];
            lists.into_iter().flatten().all(clock)
        })
    }

    /// Added: every wire that leaves a component judged agrees, and every component judged, but
    /// for Switches and Clocks, has the outputs that its own `update` would give it.
    pub fn satisfied(&mut self, judged: Judged) -> bool {
        self.simulator.state(|state| {
            let components = &state.comp.components;
            let lists = [&state.local_upd_list, &state.local_next_upd_list, &state.to_upd];
            let named = |index: &usize| lists.iter().any(|list| list.contains(index));
            let judged = |index: &usize| judged == Judged::All || named(index);
            let mut wires = state.comp.flat_conns.iter().filter(|wire| judged(&wire.from.0));
            let agree = wires.all(|wire| {
                components[wire.from.0].outputs[wire.from.1] == components[wire.to.0].inputs[wire.to.1]
            });
            agree && (0..components.len()).filter(judged).all(|index| has_outputs(&components[index]))
        })
    }

    /// Added: sets a Switch's output, or an Input's input, and appends the component,
    /// unless there, to logix's own list of the next pass, or to its standing list.
    pub fn edit(&mut self, way: Way, index: usize, number: u64) {
        self.simulator.state(|state| {
            let component = &mut state.comp.components[index];
            match component.prim_type {
                Primitive::Switch => component.outputs[0].set_value(number as usize),
                _ => component.inputs[0].set_value(number as usize),
            }
            let list = match way {
                Way::First => &mut state.local_upd_list,
                Way::Standing => &mut state.to_upd,
            };
            if !list.contains(&index) {
                list.push(index);
            }
        });
    }

    /// `id_to_idx`, of an id that exists.
    pub fn index_of(&mut self, id: u32) -> u64 {
        self.simulator.state(|state| state.comp.id_to_idx[&(id as usize)] as u64)
    }

    /// Number and width of a port that exists; side 0 is the inputs.
    pub fn value(&mut self, side: u8, index: usize, port: usize) -> (u64, u64) {
        let status = |state: &mut SimState| {
            let id = state.comp.components[index].id;
            match side {
                0 => state.comp.get_input_status_at(id, port),
                _ => state.comp.get_output_status_at(id, port),
            }
        };
        let data = self.simulator.state(status).expect("the port exists");
        (data.value as u64, data.bits as u64)
    }

    /// Whether a flat connection enters a component.
    pub fn is_entered(&mut self, index: usize) -> bool {
        self.simulator.state(|state| state.comp.flat_conns.iter().any(|wire| wire.to.0 == index))
    }

    /// `deps` of a component that exists.
    pub fn sources(&mut self, index: usize) -> Vec<u64> {
        self.simulator.state(|state| list_words(&state.comp.deps[index]))
    }

    /// `inv_deps` of a component that exists.
    pub fn targets(&mut self, index: usize) -> Vec<u64> {
        self.simulator.state(|state| list_words(&state.comp.inv_deps[index]))
    }
}

/// Whether an evaluation would leave a component's outputs; Switches and Clocks aside.
fn has_outputs(component: &PrimitiveComponent) -> bool {
    if matches!(component.prim_type, Primitive::Switch | Primitive::Clock { .. }) {
        return true;
    }
    let mut evaluated = PrimitiveComponent {
        id: component.id,
        name: String::new(),
        prim_type: component.prim_type.clone(),
        inputs: component.inputs.clone(),
        outputs: component.outputs.clone(),
    };
    evaluated.update(0);
    evaluated.outputs == component.outputs
}

/// A primitive below the one composite that holds a table's components.
fn child(entry: &Entry) -> Component<ExtraInfo> {
    let id = entry.id as usize;
    ComponentBuilder::new(id)
        .port_count(entry.fields.inputs as usize, entry.fields.outputs as usize)
        .extra(ExtraInfo::from_primitive(id, primitive(&entry.fields)))
        .build()
}

/// The ports keep their widths and take the table's numbers.
fn put_values(ports: &mut [Data], numbers: &[u64]) {
    for (port, number) in ports.iter_mut().zip(numbers) {
        port.set_value(*number as usize);
    }
}

fn port_values(ports: &[Data]) -> Vec<PortValue> {
    ports.iter().map(|data| PortValue { number: data.value as u64, width: data.bits as u64 }).collect()
}

fn list(tables: &Tables, list: usize) -> Vec<usize> {
    tables.used(list).iter().map(|index| *index as usize).collect()
}

fn list_words(list: &[usize]) -> Vec<u64> {
    list.iter().map(|index| *index as u64).collect()
}

/// Eight words for each component: kind, id, C, parameter, inputs, outputs,
/// first input, first output.
fn component_words(components: &[PrimitiveComponent]) -> Vec<u64> {
    let (mut first_input, mut first_output) = (0, 0);
    let mut words = vec![];
    for component in components {
        let (kind, width, parameter) = kind_words(&component.prim_type);
        let (inputs, outputs) = (component.inputs.len() as u64, component.outputs.len() as u64);
        words.extend([kind, component.id as u64, width, parameter]);
        words.extend([inputs, outputs, first_input, first_output]);
        first_input += inputs;
        first_output += outputs;
    }
    words
}
