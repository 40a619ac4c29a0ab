//! The waiting book, kept from calls and refusal numbers alone, and a watch over its laws.

use crate::call::Call;
use std::fmt;

const LOCALITIES: usize = 5;
const HASH_LOCALITY: u8 = 4;

/// What a call means to those who wait.
#[derive(Clone, Copy, Debug, PartialEq, Eq)]
pub enum Event {
    /// A power-on or an accepted reset ended every wait.
    Cleared,
    /// This locality wrote its request.
    Request(u8),
    /// This locality stopped waiting of its own will.
    Withdrawal(u8),
    /// The holder let go.
    Handover,
    /// Nothing of the above. A seizure is here: it is no handover, whatever it does to a wait.
    Other,
}

/// The book of document 01.
#[derive(Clone, Copy, Debug, Default, PartialEq, Eq)]
pub struct Book {
    pub active: Option<u8>,
    pub waiting: [bool; LOCALITIES],
    pub open: bool,
}

impl Book {
    /// Enters one call and says what it was.
    pub fn enter(&mut self, call: &Call, refusal: u8) -> Event {
        match *call {
            Call::PowerOn { .. } => self.clear(),
            Call::Reset if refusal == 0 => self.clear(),
            Call::Write { offset, byte } if refusal == 0 => self.enter_write(offset, byte),
            _ => Event::Other,
        }
    }

    fn clear(&mut self) -> Event {
        *self = Book::default();
        Event::Cleared
    }

    fn enter_write(&mut self, offset: u64, byte: u8) -> Event {
        match offset {
            0x4028..=0x402b if matches!(self.active, None | Some(HASH_LOCALITY)) => {
                self.active = Some(HASH_LOCALITY);
                self.open = true;
                Event::Other
            }
            0x4020..=0x4023 if self.open => {
                self.open = false;
                self.hand_over()
            }
            0x4000..=0x4fff if self.open => Event::Other,
            0x0000 | 0x1000 | 0x2000 | 0x3000 | 0x4000 => {
                self.enter_access((offset >> 12) as u8, byte)
            }
            _ => Event::Other,
        }
    }

    fn enter_access(&mut self, x: u8, byte: u8) -> Event {
        // Bits 5, 4, 3 and 1 count; a mix of them matches no line below.
        match byte & 0b0011_1010 {
            0b0000_0010 => self.request(x),
            0b0010_0000 if self.active == Some(x) => self.hand_over(),
            0b0010_0000 if self.waits(x) => {
                self.waiting[usize::from(x)] = false;
                Event::Withdrawal(x)
            }
            0b0000_1000 if self.active.is_none_or(|active| active < x) => {
                self.active = Some(x);
                self.waiting[usize::from(x)] = false;
                Event::Other
            }
            _ => Event::Other,
        }
    }

    fn request(&mut self, x: u8) -> Event {
        match self.active {
            None => self.active = Some(x),
            Some(active) => self.waiting[usize::from(x)] |= active != x,
        }
        Event::Request(x)
    }

    fn hand_over(&mut self) -> Event {
        self.active = self.highest_waiting();
        if let Some(served) = self.active {
            self.waiting[usize::from(served)] = false;
        }
        Event::Handover
    }

    fn highest_waiting(&self) -> Option<u8> {
        self.waiting
            .iter()
            .rposition(|waits| *waits)
            .map(|x| x as u8)
    }

    fn waits(&self, x: u8) -> bool {
        self.waiting[usize::from(x)]
    }
}

/// One running wait.
#[derive(Clone, Copy, Debug, Default, PartialEq, Eq)]
struct Wait {
    handovers: u64,
    /// Accepted requests of each locality since the wait began.
    requests: [u64; LOCALITIES],
}

impl Wait {
    /// The most requests that a locality higher than x wrote.
    fn k(&self, x: u8) -> u64 {
        let higher = &self.requests[usize::from(x) + 1..];
        higher.iter().copied().max().unwrap_or(0)
    }
}

/// A wait that a handover ended by service.
#[derive(Clone, Copy, Debug, PartialEq, Eq)]
pub struct Served {
    pub x: u8,
    /// The most requests that a higher locality wrote meanwhile.
    pub k: u64,
    /// The handovers since the wait began, this one with them.
    pub handovers: u64,
}

/// A law of demand 3 that did not hold.
#[derive(Clone, Copy, Debug, PartialEq, Eq)]
pub enum Broken {
    /// Somebody waits though the device is free.
    WaitsWhileFree(u8),
    /// The active locality waits.
    HolderWaits(u8),
    /// This locality asked for a held device and does not wait.
    RequestLost(u8),
    /// This wait ended with no service, withdrawal, reset or power-on.
    WaitLost(u8),
    /// A handover served other than the highest waiting locality.
    WrongService { due: Option<u8>, served: Option<u8> },
    /// This locality still waits after the handover that had to serve it.
    Starved { x: u8, k: u64, handovers: u64 },
    /// The device's active locality or waiting flags are not the book's.
    DeviceDiffers,
}

impl fmt::Display for Broken {
    fn fmt(&self, f: &mut fmt::Formatter<'_>) -> fmt::Result {
        match *self {
            Broken::WaitsWhileFree(x) => write!(f, "locality {x} waits for a free device"),
            Broken::HolderWaits(x) => write!(f, "locality {x} is active and waits"),
            Broken::RequestLost(x) => write!(f, "the request of locality {x} got lost"),
            Broken::WaitLost(x) => write!(f, "the wait of locality {x} got lost"),
            Broken::WrongService { due, served } => {
                write!(f, "handover served {served:?}, due was {due:?}")
            }
            Broken::Starved { x, k, handovers } => {
                write!(f, "locality {x} waits after {handovers} handovers, k = {k}")
            }
            Broken::DeviceDiffers => write!(f, "the device differs from the book"),
        }
    }
}

impl std::error::Error for Broken {}

/// The handover by which x is active: (4 - x)(k + 1) + 1.
pub fn bound(x: u8, k: u64) -> u64 {
    4u64.saturating_sub(u64::from(x)) * (k + 1) + 1
}

/// Keeps the book, checks its laws after each call and counts for every running wait.
#[derive(Clone, Debug, Default, PartialEq, Eq)]
pub struct Watch {
    book: Book,
    waits: [Option<Wait>; LOCALITIES],
    served: Option<Served>,
}

impl Watch {
    pub fn new() -> Watch {
        Watch::default()
    }

    /// A watch that starts in the middle: whoever waits there has waited through no handover yet.
    pub fn begun(book: Book) -> Watch {
        let mut watch = Watch {
            book,
            ..Watch::default()
        };
        watch.open_and_close_waits();
        watch
    }

    pub fn book(&self) -> &Book {
        &self.book
    }

    /// The wait that the last call ended, if it was a handover.
    pub fn served(&self) -> Option<Served> {
        self.served
    }

    /// Takes one call and its refusal number.
    pub fn tell(&mut self, call: &Call, refusal: u8) -> Result<(), Broken> {
        let mut after = self.book;
        let event = after.enter(call, refusal);
        self.step(event, after)
    }

    /// Holds a device's active locality and waiting flags against the book.
    pub fn compare(&self, active: Option<u8>, waiting: &[bool; LOCALITIES]) -> Result<(), Broken> {
        if active == self.book.active && *waiting == self.book.waiting {
            Ok(())
        } else {
            Err(Broken::DeviceDiffers)
        }
    }

    /// Takes one event and the state said to follow it; apart from `tell` so that a test can show
    /// it states which break a law.
    fn step(&mut self, event: Event, after: Book) -> Result<(), Broken> {
        check_holder(&after)?;
        check_request(event, &after)?;
        check_service(event, &self.book, &after)?;
        check_waits_kept(event, &self.book, &after)?;
        self.count(event);
        self.served = self.serves(event, &after);
        self.book = after;
        self.check_bounds(event)?;
        self.open_and_close_waits();
        Ok(())
    }

    /// Counts the event for the waits that ran before it.
    fn count(&mut self, event: Event) {
        for wait in self.waits.iter_mut().flatten() {
            match event {
                Event::Handover => wait.handovers += 1,
                Event::Request(y) => wait.requests[usize::from(y)] += 1,
                _ => {}
            }
        }
    }

    fn serves(&self, event: Event, after: &Book) -> Option<Served> {
        let x = after.active.filter(|_| event == Event::Handover)?;
        let wait = self.waits[usize::from(x)]?;
        Some(Served {
            x,
            k: wait.k(x),
            handovers: wait.handovers,
        })
    }

    fn check_bounds(&self, event: Event) -> Result<(), Broken> {
        if event != Event::Handover {
            return Ok(());
        }
        for x in localities().filter(|x| self.book.waits(*x)) {
            let Some(wait) = self.waits[usize::from(x)] else {
                continue;
            };
            let (k, handovers) = (wait.k(x), wait.handovers);
            if handovers >= bound(x, k) {
                return Err(Broken::Starved { x, k, handovers });
            }
        }
        Ok(())
    }

    /// A wait that began with this call starts at nought: its own request is not in its counts.
    fn open_and_close_waits(&mut self) {
        for (wait, waits) in self.waits.iter_mut().zip(self.book.waiting) {
            *wait = waits.then(|| wait.unwrap_or_default());
        }
    }
}

fn localities() -> impl Iterator<Item = u8> {
    0..LOCALITIES as u8
}

/// Nobody waits while the device is free, and its holder does not wait for it.
fn check_holder(after: &Book) -> Result<(), Broken> {
    match (after.active, after.highest_waiting()) {
        (None, Some(x)) => Err(Broken::WaitsWhileFree(x)),
        (Some(active), _) if after.waits(active) => Err(Broken::HolderWaits(active)),
        _ => Ok(()),
    }
}

/// After its request a locality is active or waits.
fn check_request(event: Event, after: &Book) -> Result<(), Broken> {
    match event {
        Event::Request(x) if after.active != Some(x) && !after.waits(x) => {
            Err(Broken::RequestLost(x))
        }
        _ => Ok(()),
    }
}

/// A handover serves the highest waiting locality in that step, if any.
fn check_service(event: Event, before: &Book, after: &Book) -> Result<(), Broken> {
    let due = before.highest_waiting();
    if event == Event::Handover && after.active != due {
        return Err(Broken::WrongService {
            due,
            served: after.active,
        });
    }
    Ok(())
}

/// A wait ends with service, withdrawal, reset or power-on only.
fn check_waits_kept(event: Event, before: &Book, after: &Book) -> Result<(), Broken> {
    let ended_rightly =
        |x: u8| after.active == Some(x) || event == Event::Withdrawal(x) || event == Event::Cleared;
    match localities().find(|x| before.waits(*x) && !after.waits(*x) && !ended_rightly(*x)) {
        Some(x) => Err(Broken::WaitLost(x)),
        None => Ok(()),
    }
}

#[cfg(test)]
mod tests {
    use super::*;

    const REQUEST: u8 = 0x02;
    const RELEASE: u8 = 0x20;
    const SEIZE: u8 = 0x08;

    fn access(x: u8, byte: u8) -> Call {
        Call::Write {
            offset: u64::from(x) << 12,
            byte,
        }
    }

    fn told(calls: &[Call]) -> Watch {
        let mut watch = Watch::new();
        for call in calls {
            watch.tell(call, 0).unwrap();
        }
        watch
    }

    fn book(active: Option<u8>, waiting: &[u8]) -> Book {
        let waiting = std::array::from_fn(|x| waiting.contains(&(x as u8)));
        Book {
            active,
            waiting,
            open: false,
        }
    }

    /// Locality 0 holds the device, 1 and 3 wait.
    fn two_wait() -> Watch {
        told(&[access(0, REQUEST), access(1, REQUEST), access(3, REQUEST)])
    }

    #[test]
    fn request_takes_a_free_device_and_waits_for_a_held_one() {
        assert_eq!(*told(&[access(1, REQUEST)]).book(), book(Some(1), &[]));
        assert_eq!(
            *told(&[access(1, REQUEST), access(1, REQUEST)]).book(),
            book(Some(1), &[])
        );
        assert_eq!(*two_wait().book(), book(Some(0), &[1, 3]));
    }

    #[test]
    fn release_serves_the_highest_and_withdrawal_only_ends_its_wait() {
        let mut watch = two_wait();
        watch.tell(&access(1, RELEASE), 0).unwrap();
        assert_eq!(*watch.book(), book(Some(0), &[3]));
        watch.tell(&access(4, RELEASE), 0).unwrap();
        assert_eq!(*watch.book(), book(Some(0), &[3]));
        watch.tell(&access(0, RELEASE), 0).unwrap();
        assert_eq!(*watch.book(), book(Some(3), &[]));
        watch.tell(&access(3, RELEASE), 0).unwrap();
        assert_eq!(*watch.book(), book(None, &[]));
    }

    #[test]
    fn seizure_needs_a_lower_holder_or_a_free_device() {
        assert_eq!(*told(&[access(0, SEIZE)]).book(), book(Some(0), &[]));
        let mut watch = told(&[access(2, REQUEST), access(3, REQUEST)]);
        for x in 0..=2 {
            watch.tell(&access(x, SEIZE), 0).unwrap();
            assert_eq!(*watch.book(), book(Some(2), &[3]));
        }
        watch.tell(&access(3, SEIZE), 0).unwrap();
        assert_eq!(*watch.book(), book(Some(3), &[]));
    }

    #[test]
    fn hash_lines_come_before_access_lines() {
        let (start, end) = (write(0x402b, 0), write(0x4023, 0));
        let mut watch = told(&[
            start.clone(),
            access(4, RELEASE),
            access(2, REQUEST),
            start.clone(),
        ]);
        assert_eq!(
            *watch.book(),
            Book {
                open: true,
                ..book(Some(4), &[2])
            }
        );
        watch.tell(&end, 0).unwrap();
        assert_eq!(*watch.book(), book(Some(2), &[]));
        watch.tell(&end, 0).unwrap();
        watch.tell(&start, 0).unwrap();
        assert_eq!(*watch.book(), book(Some(2), &[]));
    }

    fn write(offset: u64, byte: u8) -> Call {
        Call::Write { offset, byte }
    }

    #[test]
    fn refused_calls_and_questions_leave_no_trace() {
        let mut watch = two_wait();
        let before = watch.clone();
        for refusal in 1..=7 {
            watch.tell(&access(0, RELEASE), refusal).unwrap();
            watch.tell(&Call::Reset, refusal).unwrap();
        }
        let answer = Call::Respond {
            run: 0,
            answer: Vec::new(),
        };
        let others = [
            Call::Read { offset: 0 },
            answer,
            Call::PcrValue { pcr: 0 },
            Call::Window,
        ];
        for refusal in 0..=7 {
            for call in &others {
                watch.tell(call, refusal).unwrap();
            }
        }
        watch.tell(&Call::InterruptLine, 0).unwrap();
        assert_eq!(watch, before);
    }

    #[test]
    fn writes_that_say_nothing_of_holding_leave_no_trace() {
        let mut watch = two_wait();
        for call in [
            write(0x5000, RELEASE),
            write(0x0018, RELEASE),
            access(0, RELEASE | REQUEST),
            access(0, 0xc5),
        ] {
            watch.tell(&call, 0).unwrap();
        }
        assert_eq!(watch, two_wait());
    }

    #[test]
    fn a_reset_and_any_power_on_clear_the_book() {
        let mut watch = two_wait();
        watch.tell(&Call::Reset, 0).unwrap();
        assert_eq!(watch, Watch::new());
        let power_on = Call::PowerOn {
            established: true,
            identity: [0; 5],
        };
        let mut watch = two_wait();
        watch.tell(&power_on, 2).unwrap();
        assert_eq!(watch, Watch::new());
    }

    #[test]
    fn laws_throw_out_a_front_that_breaks_them() {
        let step = |event, after| two_wait().step(event, after);
        assert_eq!(
            step(Event::Other, book(None, &[1, 3])),
            Err(Broken::WaitsWhileFree(3))
        );
        assert_eq!(
            step(Event::Other, book(Some(3), &[1, 3])),
            Err(Broken::HolderWaits(3))
        );
        assert_eq!(
            step(Event::Request(2), book(Some(0), &[1, 3])),
            Err(Broken::RequestLost(2))
        );
        assert_eq!(
            step(Event::Request(2), book(Some(0), &[2, 3])),
            Err(Broken::WaitLost(1))
        );
        assert_eq!(
            step(Event::Withdrawal(1), book(Some(0), &[])),
            Err(Broken::WaitLost(3))
        );
    }

    #[test]
    fn a_handover_serves_the_highest() {
        let step = |event, after| two_wait().step(event, after);
        let served = |served| Broken::WrongService {
            due: Some(3),
            served,
        };
        assert_eq!(
            step(Event::Handover, book(Some(1), &[3])),
            Err(served(Some(1)))
        );
        assert_eq!(step(Event::Handover, book(None, &[])), Err(served(None)));
        assert_eq!(
            step(Event::Handover, book(Some(0), &[1, 3])),
            Err(served(Some(0)))
        );
        assert_eq!(step(Event::Handover, book(Some(3), &[1])), Ok(()));
    }

    #[test]
    fn a_device_that_is_not_the_books_is_told() {
        assert_eq!(
            two_wait().compare(Some(0), &[false; 5]),
            Err(Broken::DeviceDiffers)
        );
        assert_eq!(
            two_wait().compare(Some(0), &[false, true, false, true, false]),
            Ok(())
        );
    }

    #[test]
    fn bound_is_reached_and_not_passed() {
        // 3 and 4 wait before 2 does and each asks once more: the worst case for k = 1.
        let mut watch = told(&[0, 3, 4, 2].map(|x| access(x, REQUEST)));
        let steps = [
            (0, RELEASE, Some(4)),
            (4, RELEASE, Some(3)),
            (4, REQUEST, Some(3)),
            (3, RELEASE, Some(4)),
            (3, REQUEST, Some(4)),
            (4, RELEASE, Some(3)),
        ];
        for (x, byte, active) in steps {
            watch.tell(&access(x, byte), 0).unwrap();
            assert_eq!(watch.book().active, active);
            assert!(watch.book().waits(2));
        }
        assert_eq!(bound(2, 1), 5);
        let mut starved = watch.clone();
        watch.tell(&access(3, RELEASE), 0).unwrap();
        assert_eq!(*watch.book(), book(Some(2), &[]));

        // A front that invents a waiting 4 passes every other law and fails the bound.
        starved.book.waiting[4] = true;
        let invented = starved.step(Event::Handover, book(Some(4), &[2]));
        assert_eq!(
            invented,
            Err(Broken::Starved {
                x: 2,
                k: 1,
                handovers: 5
            })
        );
    }

    fn served(x: u8, k: u64, handovers: u64) -> Option<Served> {
        Some(Served { x, k, handovers })
    }

    #[test]
    fn a_wait_that_a_handover_ends_is_told() {
        let mut watch = two_wait();
        assert_eq!(watch.served(), None);
        watch.tell(&access(0, RELEASE), 0).unwrap();
        assert_eq!(watch.served(), served(3, 0, 1));
        watch.tell(&access(4, REQUEST), 0).unwrap();
        assert_eq!(watch.served(), None);
        watch.tell(&access(3, RELEASE), 0).unwrap();
        watch.tell(&access(4, RELEASE), 0).unwrap();
        assert_eq!(watch.served(), served(1, 1, 3));
    }

    #[test]
    fn a_watch_that_starts_in_the_middle_counts_from_there() {
        let mut watch = Watch::begun(book(Some(0), &[1, 3]));
        watch.tell(&access(0, RELEASE), 0).unwrap();
        watch.tell(&access(3, RELEASE), 0).unwrap();
        assert_eq!(watch.served(), served(1, 0, 2));
        assert_eq!(*watch.book(), book(Some(1), &[]));
    }

    #[test]
    fn locality_4_is_served_at_once() {
        for k in 0..4 {
            assert_eq!(bound(4, k), 1);
        }
        assert_eq!(bound(0, 0), 5);
        assert_eq!(bound(0, 2), 13);
    }
}
