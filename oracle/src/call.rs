//! The one call for inputs and outputs (document 02, 7/13), made of the text's two passes. The text knows no such call, and its passes
//! keep old entries: so the area is first made ready, and both are made over it one after the other, in either order.

use crate::old;
use crate::pdi::PdiSegment;
use crate::register::Areas;
use crate::run::{Turn, data_pass};
use crate::sheet::Sheet;
use crate::subdevice::configuration::PdoDirection::{self, MasterRead, MasterWrite};
use std::cell::RefCell;

/// How a call is made: from which offsets, in which group, under which table. Straight after the inputs the outputs' offset isn't read.
pub struct Call<'a> {
    pub sheet: &'a Sheet,
    pub table: &'a [(u16, u8)],
    pub inputs: u32,
    pub outputs: u32,
    pub group: u32,
    pub after_inputs: bool,
    pub keeping: bool,
}

/// A direction's segment less the group start, and where it ends.
#[derive(PartialEq)]
pub struct Planned {
    pub segment: PdiSegment,
    pub next: u32,
}

/// What both passes answer and leave.
#[derive(PartialEq)]
pub struct Made {
    pub inputs: Planned,
    pub outputs: Planned,
    pub areas: Areas,
}

/// What a call came to.
pub enum Outcome {
    Made(Made),
    /// A pass fails. Which, if only one does where each is made by itself; and whether a register was changed by then, the inputs coming first.
    Fails {
        inputs: bool,
        outputs: bool,
        written: bool,
    },
    /// The two orders don't come to the same: the text's passes should never do so.
    OrdersDiffer,
}

impl Call<'_> {
    /// What the passes begin with: by default the area with the old entries of both directions zeroed.
    fn begun(&self, areas: &Areas) -> Areas {
        let fmmus = if self.keeping { areas.fmmus } else { old::zeroed(&areas.fmmus) };
        Areas { fmmus, channels: areas.channels }
    }

    fn pass(&self, direction: PdoDirection, offset: u32, areas: &RefCell<Areas>) -> Option<Planned> {
        let turn = Turn { table: self.table, direction, offset, group: self.group };
        let (segment, next) = data_pass(self.sheet, &turn, areas)?;
        Some(Planned { segment, next: next.start_address })
    }

    /// Where the outputs start. Straight after the inputs that is nowhere if these fail.
    fn outputs_from(&self, inputs: Option<&Planned>) -> Option<u32> {
        if self.after_inputs { inputs.map(|planned| planned.next) } else { Some(self.outputs) }
    }

    /// The inputs, then the outputs.
    fn inputs_first(&self, areas: &RefCell<Areas>) -> Option<Made> {
        let inputs = self.pass(MasterRead, self.inputs, areas)?;
        let outputs = self.pass(MasterWrite, self.outputs_from(Some(&inputs))?, areas)?;
        Some(Made { inputs, outputs, areas: areas.borrow().clone() })
    }

    /// The outputs, from where they start, then the inputs.
    fn outputs_first(&self, start: u32, areas: &RefCell<Areas>) -> Option<Made> {
        let outputs = self.pass(MasterWrite, start, areas)?;
        let inputs = self.pass(MasterRead, self.inputs, areas)?;
        Some(Made { inputs, outputs, areas: areas.borrow().clone() })
    }

    pub fn made(&self, areas: &Areas) -> Outcome {
        let begun = self.begun(areas);
        let fresh = || RefCell::new(begun.clone());
        let inputs = self.pass(MasterRead, self.inputs, &fresh());
        let start = self.outputs_from(inputs.as_ref());
        let left = fresh();
        let one = self.inputs_first(&left);
        let two = start.and_then(|start| self.outputs_first(start, &fresh()));
        if one != two {
            return Outcome::OrdersDiffer;
        }
        match one {
            Some(made) => Outcome::Made(made),
            None => Outcome::Fails {
                inputs: inputs.is_none(),
                outputs: start.is_some_and(|start| self.pass(MasterWrite, start, &fresh()).is_none()),
                written: *left.borrow() != begun,
            },
        }
    }
}
