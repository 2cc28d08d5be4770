use crate::{flatten::FlattenComponent, primitives::primitive::Primitive};
use asmhdl::AsmProgramUpdateType;
use asmhdl::Data; // PATCH
use log::debug;
//PATCH- use rand::seq::SliceRandom;
use std::{
    sync::{Arc, Mutex},
    thread,
    time::{Duration, Instant},
};

/// What sees the outputs of each component that a pass updates, before its update and after. // PATCH
pub trait Watch { // PATCH
    fn before(&mut self, outputs: &[Data]); // PATCH
    fn after(&mut self, outputs: &[Data]); // PATCH
} // PATCH
/// Nobody watches. // PATCH
impl Watch for () { // PATCH
    fn before(&mut self, _outputs: &[Data]) {} // PATCH
    fn after(&mut self, _outputs: &[Data]) {} // PATCH
} // PATCH
pub struct SimState {
    pub comp: FlattenComponent,
    pub to_upd: Vec<usize>,
    pub running: bool,
    pub end: bool,
    pub local_upd_list: Vec<usize>, // PATCH
    pub local_next_upd_list: Vec<usize>, // PATCH
}

pub struct Simulator {
    state: Arc<Mutex<SimState>>,
}

impl Simulator {
    pub fn new(comp: FlattenComponent) -> Self {
        let to_upd = comp
            .components
            .iter()
            .enumerate()
            .filter_map(|(i, c)| {
                match &c.prim_type {
                    Primitive::Const { value: _v } => {
                        return Some(i);
                    }
                    Primitive::Clock { period: _p } => {
                        return Some(i);
                    }
                    Primitive::Custom { comp, state: _ } => {
                        if let AsmProgramUpdateType::Always = comp.update_type {
                            return Some(i);
                        }
                    }

                    _ => {}
                }
                if let Primitive::Clock { period: _p } = c.prim_type {
                    Some(i)
                } else {
                    None
                }
            })
            .collect::<Vec<usize>>();

        Simulator {
            state: Arc::new(Mutex::new(SimState {
                comp,
                to_upd,
                running: false,
                end: false,
                local_upd_list: vec![], // PATCH
                local_next_upd_list: vec![], // PATCH
            })),
        }
    }

    pub fn state<T>(&mut self, on_locked: impl FnOnce(&mut SimState) -> T) -> T {
        let mut state = self.state.lock().unwrap();
        on_locked(&mut state)
    }

    pub fn try_state<T: Default>(&mut self, on_locked: impl FnOnce(&mut SimState) -> T) -> T {
        let state = self.state.try_lock();
        if let Ok(mut state) = state {
            return on_locked(&mut state);
        }
        T::default()
    }

    pub fn pause_resume(&mut self) {
        let mut state = self.state.lock().unwrap();
        state.running = !state.running;
    }

    pub fn stop(&mut self) {
        let mut state = self.state.lock().unwrap();
        state.end = true;
    }

    /// Starts the simulation.
    pub fn start(&mut self, keep_running: bool) {
        let state_arc = self.state.clone();

//PATCH-         thread::spawn(move || {
        { // PATCH
            let mut state = state_arc.lock().unwrap();
            state.running = true;
//PATCH-             let start = Instant::now();
            let mut local_upd_list: Vec<usize> = (0..state.comp.components.len()).collect();
            let mut local_next_upd_list: Vec<usize> = state.to_upd.clone();
            let mut to_upd_len = state.to_upd.len();

            {
                let _x = state;
            }

//PATCH-             while to_upd_len > 0 || keep_running {
            let mut state = state_arc.lock().unwrap(); // PATCH
            state.local_upd_list = local_upd_list; // PATCH
            state.local_next_upd_list = local_next_upd_list; // PATCH
        } // PATCH
    } // PATCH
    /// One pass of the loop of `start`, as with `keep_running` true, at the time handed in. // PATCH
    pub fn pass(&mut self, time: u128) { // PATCH
        self.watched_pass(time, &mut ()); // PATCH
    } // PATCH
    /// The same, watched. // PATCH
    pub fn watched_pass(&mut self, time: u128, watch: &mut impl Watch) { // PATCH
        let state_arc = self.state.clone(); // PATCH
        { // PATCH
            let mut state = state_arc.lock().unwrap(); // PATCH
            let mut local_upd_list = std::mem::take(&mut state.local_upd_list); // PATCH
            let mut local_next_upd_list = std::mem::take(&mut state.local_next_upd_list); // PATCH
            let mut to_upd_len = state.to_upd.len(); // PATCH
            drop(state); // PATCH
            for time in [time] { // PATCH
                // debug!("Update list: {:?}", self.to_upd);

                let mut state = state_arc.lock().unwrap();
                if state.end {
                    {
                        let _x = state;
                    }
                    break;
                }

                if !state.running {
                    {
                        let _x = state;
                    }
                    thread::sleep(Duration::from_millis(100));
                    continue;
                }

//PATCH-                 let time = start.elapsed().as_nanos();

                for idx in local_upd_list.iter() {
                    debug!(
                        "To Update: {:?}",
                        local_upd_list
                            .iter()
                            .map(|x| format!("{} {}", *x, state.comp.components[*x].name.clone()))
                            .collect::<Vec<String>>()
                    );

                    let comp_idx = *idx;
                    let comp_i = &mut state.comp.components[comp_idx];
                    debug!("Updating component: {} {:?}", comp_idx, comp_i.prim_type);
                    debug!("  Old inputs: {:?}", comp_i.inputs);
                    debug!("  Old outputs: {:?}", comp_i.outputs);

                    watch.before(&comp_i.outputs); // PATCH
                    comp_i.update(time);
                    watch.after(&comp_i.outputs); // PATCH

                    debug!("  New outputs: {:?}", comp_i.outputs);

                    match &comp_i.prim_type {
                        Primitive::Clock { period: _p } => {}
                        Primitive::Custom { comp, state: _ } => {
                            if let AsmProgramUpdateType::InputChanges = comp.update_type {
                                state.to_upd.retain(|&x| x != comp_idx);
                            }
                        }
                        _ => {
                            state.to_upd.retain(|&x| x != comp_idx);
                        }
                    }

                    let mut rand_conns =
                        (0..state.comp.connections[comp_idx].len()).collect::<Vec<usize>>();

//PATCH-                     rand_conns.shuffle(&mut rand::thread_rng());

                    for idx in rand_conns.iter() {
                        let conn = state.comp.connections[comp_idx][*idx];
                        let val = state.comp.components[comp_idx].outputs[conn.from.1];

                        // Do not update if the value is the same
                        if val == state.comp.components[conn.to.0].inputs[conn.to.1] {
                            continue;
                        }

                        debug!("  Connection: {:?}", conn);
                        debug!(
                            "New comp to update: {} {:?}",
                            conn.to.0, state.comp.components[conn.to.0].prim_type
                        );

                        // Update the value
                        state.comp.components[conn.to.0].inputs[conn.to.1] = val;

                        if !local_next_upd_list.contains(&conn.to.0) {
                            // stats.clk_cycle_ended = false;
                            local_next_upd_list.push(conn.to.0);
                        }
                    }
                }

                local_upd_list = local_next_upd_list;
                local_next_upd_list = state.to_upd.clone();

                to_upd_len = state.to_upd.len();
                {
                    let _x = state;
                }
            }
//PATCH-         });
            let mut state = state_arc.lock().unwrap(); // PATCH
            state.local_upd_list = local_upd_list; // PATCH
            state.local_next_upd_list = local_next_upd_list; // PATCH
        } // PATCH
    }
}
