//! The yardstick and the waiting book, one call after the other beside the front.

use crate::records::Clause;
use crate::state::State;
use crate::turn::Turn;
use yardstick::book::{Book, Served, Watch};
use yardstick::call::Call;
use yardstick::device::FIFO_LENGTHS;

pub struct Follower {
    pub state: State,
    /// Kept from the first power-on on, or from a load of a record in shape.
    watch: Option<Watch>,
    note: Option<(Clause, bool)>,
}

impl Follower {
    pub fn new() -> Follower {
        Follower {
            state: State::start(),
            watch: None,
            note: None,
        }
    }

    /// Plays a turn on the yardstick and puts its outcome and the dump after it; gives the refusal number.
    pub fn play(&mut self, turn: &Turn, out: &mut Vec<u8>) -> u8 {
        let refusal = self.state.play(turn, out);
        self.state.dump(out);
        refusal
    }

    /// Tells the book of a call and the front's refusal number, and holds it against the front's active locality and waiting flags.
    pub fn enter(
        &mut self,
        turn: &Turn,
        refusal: u8,
        active: Option<u8>,
        waiting: &[bool; 5],
    ) -> Result<(), String> {
        match turn {
            Turn::Made(Call::PowerOn { .. }) => {
                self.watch = Some(self.watch.take().unwrap_or_default());
            }
            Turn::Load { state, note } => (self.watch, self.note) = (begun(state), *note),
            Turn::Made(_) => {}
        }
        if let (Some(watch), Turn::Made(call)) = (&mut self.watch, turn) {
            watch
                .tell(call, refusal)
                .map_err(|broken| format!("waiting book: {broken}"))?;
        }
        if let Some(watch) = &self.watch {
            watch.compare(active, waiting).map_err(|_| {
                let book = watch.book();
                format!(
                    "waiting book: active {:?}, waiting {:?}; front: active {active:?}, waiting {:?}",
                    book.active,
                    book.waiting.map(u8::from),
                    waiting.map(u8::from)
                )
            })?;
        }
        self.check_note(turn, refusal)
    }

    /// A wait that the last call ended by a handover.
    pub fn served(&self) -> Option<Served> {
        self.watch.as_ref()?.served()
    }

    /// A record made to meet a clause of the shape rule is accepted by the next call, one made to break it refused with 6.
    fn check_note(&mut self, turn: &Turn, refusal: u8) -> Result<(), String> {
        if matches!(turn, Turn::Load { .. }) {
            return Ok(());
        }
        let note = self.note.take();
        let (Some((clause, met)), Turn::Made(Call::Window)) = (note, turn) else {
            return Ok(());
        };
        let due = if met { 0 } else { 6 };
        if refusal == due || !FIFO_LENGTHS.contains(&self.state.write.len()) {
            return Ok(());
        }
        Err(format!(
            "shape rule, '{clause}': refusal {refusal}, not {due}"
        ))
    }
}

/// A book that starts with a loaded record, where the front accepts it.
fn begun(state: &State) -> Option<Watch> {
    let device = &state.device;
    let accepted = device.window(&state.write, &state.read).0 == 0;
    accepted.then(|| {
        Watch::begun(Book {
            active: device.active,
            waiting: device.waiting,
            open: device.hash.open,
        })
    })
}
