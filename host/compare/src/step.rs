//! One call on both sides, and everything compared after it.

use crate::image::encode;
use crate::layer::Layer;
use rrezhbuta::limits::RECORD_BYTES;
use rrezhbuta::Tables;
use rrezhbuta_model::{Answer, Buffer, Call, Model};
use std::fmt;

/// What a call tells: its answer, or the errno of its refusal.
pub type Told = Result<Answer, u32>;

/// What both sides said, and where they differ.
#[derive(Clone, Debug, PartialEq, Eq)]
pub struct Difference {
    /// The call.
    pub call: Call,
    /// What the model answers.
    pub expected: Told,
    /// What the layer answers.
    pub found: Told,
    /// Where they differ.
    pub place: Place,
    /// What both have there.
    pub values: String,
}

/// Where the two sides differ.
#[derive(Clone, Copy, Debug, PartialEq, Eq)]
pub enum Place {
    /// In the answer.
    Answer,
    /// In this word of the process table.
    Processes(usize),
    /// In this place of the thread table.
    Threads(usize),
    /// In this byte of the thread buffer.
    ThreadBuffer(usize),
    /// In this byte of the process buffer.
    ProcessBuffer(usize),
    /// In the part that the look hands back.
    Look,
}

impl fmt::Display for Difference {
    fn fmt(&self, f: &mut fmt::Formatter<'_>) -> fmt::Result {
        writeln!(f, "model    {:?}", self.expected)?;
        writeln!(f, "library  {:?}", self.found)?;
        write!(f, "differ   {:?}: {}", self.place, self.values)
    }
}

/// The model and what its tables should be.
pub struct Expectation {
    /// The model.
    pub model: Model,
    image: Tables<'static>,
}

impl Default for Expectation {
    fn default() -> Expectation {
        Expectation::new(Model::new())
    }
}

impl Expectation {
    /// Of a model as it is.
    pub fn new(model: Model) -> Expectation {
        let mut image = Tables::new();
        encode(model.rows(), &mut image);
        Expectation { model, image }
    }

    /// Makes the call on both sides; their answer, or how they differ.
    pub fn step<L: Layer>(&mut self, layer: &mut L, call: &Call) -> Result<Told, Box<Difference>> {
        let expected = self.model.call(call);
        let found = layer.call(call);
        if expected.is_ok() {
            encode(self.model.rows(), &mut self.image);
        }
        let differs = first_difference(&self.image, layer.tables());
        let differs = differs.or_else(|| self.look_differs(layer, call));
        verdict(call, expected, found, differs)
    }

    /// The part of a look must be the very bytes in the layer's own buffer.
    fn look_differs<L: Layer>(&self, layer: &L, call: &Call) -> Option<Differs> {
        let Call::Look { thread } = *call else {
            return None;
        };
        let part = layer.look_part(thread);
        let slot = self.model.look_slot(thread);
        let same = match slot {
            None => part.is_empty(),
            Some(slot) => {
                let buffer = match slot.buffer {
                    Buffer::Thread => layer.tables().thread_buffer(),
                    Buffer::Process => layer.tables().process_buffer(),
                };
                std::ptr::eq(part, &buffer[slot.index * RECORD_BYTES..][..RECORD_BYTES])
            }
        };
        (!same).then(|| (Place::Look, both(&slot, &part)))
    }
}

/// Where two sides differ, and what both have there.
pub type Differs = (Place, String);

/// What both have, in words.
pub fn both(expected: &dyn fmt::Debug, found: &dyn fmt::Debug) -> String {
    format!("model {expected:?}, library {found:?}")
}

/// What the call told, where neither the answers differ nor anything else.
pub fn verdict(
    call: &Call,
    expected: Told,
    found: Told,
    differs: Option<Differs>,
) -> Result<Told, Box<Difference>> {
    let answers = (expected != found).then(|| (Place::Answer, both(&expected, &found)));
    match answers.or(differs) {
        None => Ok(found),
        Some((place, values)) => Err(Box::new(Difference {
            call: *call,
            expected,
            found,
            place,
            values,
        })),
    }
}

/// Where two sets of tables differ first.
pub fn first_difference(expected: &Tables<'_>, found: &Tables<'_>) -> Option<Differs> {
    let (e, f) = (expected, found);
    differ_at(e.processes(), f.processes(), Place::Processes)
        .or_else(|| differ_at(e.threads(), f.threads(), Place::Threads))
        .or_else(|| differ_at(e.thread_buffer(), f.thread_buffer(), Place::ThreadBuffer))
        .or_else(|| differ_at(e.process_buffer(), f.process_buffer(), Place::ProcessBuffer))
}

fn differ_at<T: PartialEq + fmt::Debug>(
    expected: &[T],
    found: &[T],
    place: fn(usize) -> Place,
) -> Option<Differs> {
    // whole slices are compared quickly; the place is looked for only where they differ
    if expected == found {
        return None;
    }
    let common = expected.iter().zip(found).position(|(e, f)| e != f);
    let at = common.unwrap_or(expected.len().min(found.len()));
    Some((place(at), both(&expected.get(at), &found.get(at))))
}
