//! What the lists reached: calls by kind and refusal, and the events that must not be missing.

mod access;
mod handovers;
mod limits;

use crate::offsets;
use crate::records::CLAUSES;
use crate::state::State;
use crate::turn::{Turn, KINDS, REFUSALS};
use access::AccessReads;
use handovers::{By, Handovers};
use limits::Limits;
use yardstick::book::{bound, Served};
use yardstick::call::Call;
use yardstick::device::{GREATEST_C, MOST_HASH_BYTES};
use yardstick::{Device, Phase};

/// What a call is judged by besides the record that it leaves.
pub struct Before {
    active: Option<u8>,
    waiting: [bool; 5],
    phase: Phase,
    open: bool,
    run: u32,
    hashed: u32,
    declared: u64,
    in_shape: bool,
}

impl Before {
    pub fn of(state: &State) -> Before {
        let device = &state.device;
        let size = state.write.get(2..6).unwrap_or(&[]);
        Before {
            active: device.active,
            waiting: device.waiting,
            phase: device.phase,
            open: device.hash.open,
            run: device.run,
            hashed: device.hash.stream.count,
            declared: size.iter().fold(0, |sum, byte| sum << 8 | u64::from(*byte)),
            in_shape: device.pcr_value(0).0 == 0,
        }
    }
}

/// What must not be missing besides the refusals.
#[derive(Clone, Copy)]
pub enum Event {
    WaitBegun,
    Served,
    Freed,
    Seizure,
    Withdrawal,
    Launch,
    LaunchServed,
    LaunchOver,
    Run,
    RunWrapped,
    Answer,
    StaleAnswer,
    BadSize,
    Retry,
    AbortReception,
    AbortExecution,
    AbortCompletion,
    Line,
    AnswerOfC,
    AnswerAboveC,
    CommandOfC,
    CommandAboveC,
    AnswerOfGreatestC,
    AnswerAboveGreatestC,
    CommandOfGreatestC,
    CommandAboveGreatestC,
    CommandFarAbove,
    RunBeyondSize,
    LastHashByte,
    OddAndOutOfShape,
    LongestWait,
}

/// In the order of `Event`.
const EVENTS: [&str; 31] = [
    "waits begun",
    "handovers that serve a waiting locality",
    "handovers that free the device",
    "seizures",
    "withdrawals",
    "launches completed",
    "launches completed with a locality waiting",
    "launches started over",
    "runs started",
    "runs started at the end of the run numbers",
    "answers accepted",
    "answers to another run refused in Execution",
    "commands of a bad size answered",
    "retries with bytes read",
    "aborts in Reception",
    "aborts in Execution",
    "aborts in Completion",
    "line asserted",
    "answers of C bytes accepted",
    "answers of C + 1 bytes refused",
    "commands of C bytes run",
    "commands of C + 1 bytes answered",
    "answers of C bytes accepted, C the greatest",
    "answers of C + 1 bytes refused, C the greatest",
    "commands of C bytes run, C the greatest",
    "commands of C + 1 bytes answered, C the greatest",
    "commands of 65,536 bytes or more answered",
    "runs started with more bytes than declared",
    "hash byte number 1,048,576 taken",
    "FIFOs of odd lengths refused of a record out of shape",
    "localities served by the last handover that the bound allows, k above 0",
];

#[derive(Default)]
pub struct Coverage {
    calls: u64,
    refusals: [[u64; 8]; KINDS.len()],
    events: [u64; EVENTS.len()],
    clauses: [[u64; 2]; CLAUSES.len()],
    most_waiting: usize,
    /// Loads with FIFOs of unequal and of equal length.
    lengths: [u64; 2],
    /// Accepted reads and writes at each offset.
    bytes: Vec<[u64; 2]>,
    /// Accepted reads of ACCESS in each page, by who waits.
    access: AccessReads,
    /// Handovers, by who waits.
    handovers: Handovers,
    /// FIFO lengths and burstCount around the limits.
    limits: Limits,
}

fn number(waiting: &[bool; 5]) -> usize {
    waiting.iter().filter(|waits| **waits).count()
}

impl Coverage {
    /// Calls of the front; a load is none.
    pub fn calls(&self) -> u64 {
        self.calls
    }

    pub fn count(
        &mut self,
        before: &Before,
        turn: &Turn,
        refusal: u8,
        after: &State,
        outcome: &[u8],
    ) {
        self.refusals[turn.kind()][usize::from(refusal)] += 1;
        self.calls += u64::from(!matches!(turn, Turn::Load { .. }));
        let device = &after.device;
        self.event(Event::OddAndOutOfShape, refusal == 2 && !before.in_shape);
        self.count_byte(turn, refusal);
        self.most_waiting = self.most_waiting.max(number(&device.waiting));
        match turn {
            Turn::Load { note, state } => {
                if let Some((clause, met)) = note {
                    self.clauses[*clause as usize][usize::from(*met)] += 1;
                }
                let (write, read) = (state.write.len(), state.read.len());
                self.lengths[usize::from(write == read)] += 1;
            }
            Turn::Made(call) => {
                self.limits.count(before, call, refusal, after);
                self.count_call(before, call, refusal, after);
                self.event(Event::Line, *call == Call::InterruptLine && outcome[0] == 1);
            }
        }
    }

    fn count_call(&mut self, before: &Before, call: &Call, refusal: u8, after: &State) {
        match call {
            Call::Respond { answer, .. } => {
                let executing = matches!(before.phase, Phase::Execution(_));
                self.event(Event::Answer, refusal == 0);
                self.event(Event::StaleAnswer, refusal == 3 && executing);
                self.count_answer(answer.len(), refusal, after.read.len());
            }
            Call::Read { offset } if refusal == 0 => self.access.count(before, *offset),
            Call::Write { offset, byte } if refusal == 0 => {
                self.count_holding(before, &after.device, *offset, *byte);
                self.count_command(before, after, *offset, *byte);
            }
            _ => {}
        }
    }

    /// An answer of this length, with FIFOs of c bytes.
    fn count_answer(&mut self, length: usize, refusal: u8, c: usize) {
        let whole = refusal == 0 && length == c;
        let above = refusal == 4 && length == c + 1;
        self.event(Event::AnswerOfC, whole);
        self.event(Event::AnswerAboveC, above);
        self.event(Event::AnswerOfGreatestC, whole && c == GREATEST_C);
        self.event(Event::AnswerAboveGreatestC, above && c == GREATEST_C);
    }

    /// A wait that ended by a handover.
    pub fn count_wait(&mut self, served: Option<Served>) {
        let last = served.is_some_and(|wait| wait.k > 0 && wait.handovers == bound(wait.x, wait.k));
        self.event(Event::LongestWait, last);
    }

    fn count_byte(&mut self, turn: &Turn, refusal: u8) {
        let (offset, kind) = match turn {
            Turn::Made(Call::Read { offset }) => (*offset, 0),
            Turn::Made(Call::Write { offset, .. }) => (*offset, 1),
            _ => return,
        };
        if let (0, Some(place)) = (refusal, offsets::place(offset)) {
            self.bytes.resize(offsets::COUNT, [0; 2]);
            self.bytes[place][kind] += 1;
        }
    }

    fn event(&mut self, event: Event, happened: bool) {
        self.events[event as usize] += u64::from(happened);
    }

    fn count_holding(&mut self, before: &Before, after: &Device, offset: u64, byte: u8) {
        let x = (offset >> 12) as u8;
        let closed = before.open && !after.hash.open;
        let released = offset == u64::from(x) << 12
            && before.active == Some(x)
            && byte & 0x3a == 0x20
            && !(before.open && x == 4);
        let served = number(&after.waiting) < number(&before.waiting);
        if closed || released {
            let by = if closed { By::HashEnd } else { By::Release };
            self.handovers.count(before, by);
        }
        self.event(
            Event::WaitBegun,
            number(&after.waiting) > number(&before.waiting),
        );
        self.event(Event::Served, (closed || released) && served);
        self.event(Event::Freed, (closed || released) && after.active.is_none());
        self.event(
            Event::Seizure,
            !closed && !released && before.active.is_some() && after.active != before.active,
        );
        self.event(Event::Withdrawal, served && after.active == before.active);
        self.event(Event::Launch, closed);
        self.event(Event::LaunchServed, closed && served);
        self.event(
            Event::LaunchOver,
            before.open && (0x4028..=0x402b).contains(&offset),
        );
    }

    fn count_command(&mut self, before: &Before, state: &State, offset: u64, byte: u8) {
        let after = &state.device;
        self.event(Event::Run, after.run != before.run);
        self.event(Event::RunWrapped, after.run == 0 && before.run == u32::MAX);
        self.event(
            Event::LastHashByte,
            before.open
                && after.hash.stream.count == MOST_HASH_BYTES
                && before.hashed < MOST_HASH_BYTES,
        );
        if offset & 0xfff != 0x018 || before.active != Some((offset >> 12) as u8) || before.open {
            return;
        }
        let idle = after.phase == Phase::Idle && byte & 0x62 == 0x40;
        match before.phase {
            Phase::Reception(n) => {
                self.count_go(before, state, n);
                self.event(Event::AbortReception, idle);
            }
            Phase::Execution(_) => self.event(Event::AbortExecution, idle),
            Phase::Completion(_, read) => {
                self.event(Event::Retry, read > 0 && byte & 0x62 == 0x02);
                self.event(Event::AbortCompletion, idle);
            }
            _ => {}
        }
    }

    /// What comes of a command of which n bytes were received.
    fn count_go(&mut self, before: &Before, state: &State, n: u16) {
        let (after, c) = (&state.device, state.write.len() as u64);
        let run = after.run != before.run;
        let answered = matches!(after.phase, Phase::Completion(..));
        let greatest = c == GREATEST_C as u64;
        self.event(Event::CommandOfC, run && u64::from(n) == c);
        self.event(
            Event::CommandOfGreatestC,
            run && u64::from(n) == c && greatest,
        );
        self.event(Event::RunBeyondSize, run && u64::from(n) > before.declared);
        self.event(Event::BadSize, answered);
        let above = answered && before.declared == c + 1;
        self.event(Event::CommandAboveC, above);
        self.event(Event::CommandAboveGreatestC, above && greatest);
        let far = before.declared > u64::from(u16::MAX);
        self.event(Event::CommandFarAbove, answered && far);
    }

    pub fn print(&self) {
        println!("calls by kind and refusal number:");
        println!(
            "  {:<16}{}",
            "",
            (0..8).map(|n| format!("{n:>9}")).collect::<String>()
        );
        for (name, counts) in KINDS.iter().zip(&self.refusals) {
            let row: String = counts.iter().map(|count| format!("{count:>9}")).collect();
            println!("  {name:<16}{row}");
        }
        for (name, count) in EVENTS.iter().zip(self.events) {
            println!("  {name}: {count}");
        }
        let [unequal, equal] = self.lengths;
        println!("  FIFOs of equal length: {equal}, of unequal length: {unequal}");
        self.print_pages();
        self.limits.print();
        println!("shape rule, records that just break a clause and just meet it:");
        for (clause, [broken, met]) in CLAUSES.iter().zip(self.clauses) {
            println!("  {clause}: {broken} and {met}");
        }
    }

    /// What was reached in the five pages.
    pub fn print_pages(&self) {
        println!("  most localities waiting at once: {}", self.most_waiting);
        let least = |kind: usize| self.bytes.iter().map(|counts| counts[kind]).min();
        println!(
            "  each of {} offsets read {} times or more, written {} times or more",
            offsets::COUNT,
            least(0).unwrap_or(0),
            least(1).unwrap_or(0)
        );
        self.handovers.print();
        self.access.print();
    }

    /// What document 01 lets happen and no list reached.
    pub fn missing(&self) -> Vec<String> {
        let mut missing = Vec::new();
        for ((name, counts), allowed) in KINDS.iter().zip(&self.refusals).zip(REFUSALS) {
            let absent = allowed.iter().filter(|n| counts[usize::from(**n)] == 0);
            missing.extend(absent.map(|n| format!("{name} with refusal {n}")));
        }
        let absent = EVENTS
            .iter()
            .zip(self.events)
            .filter(|(_, count)| *count == 0);
        missing.extend(absent.map(|(name, _)| name.to_string()));
        for (clause, counts) in CLAUSES.iter().zip(self.clauses) {
            if counts.contains(&0) {
                missing.push(format!("records near '{clause}'"));
            }
        }
        missing.extend(self.missing_in_pages());
        missing.extend(self.limits.missing());
        missing
    }

    /// What bus cycles alone can reach in the five pages and no list reached.
    pub fn missing_in_pages(&self) -> Vec<String> {
        let mut missing = Vec::new();
        for (offset, counts) in offsets::all().zip(&self.bytes) {
            for (count, done) in counts.iter().zip(["read", "write"]) {
                if *count == 0 {
                    missing.push(format!("an accepted {done} at {offset:04x}"));
                }
            }
        }
        missing.extend(self.access.missing());
        missing.extend(self.handovers.missing());
        if self.most_waiting < 4 {
            missing.push("four localities waiting at once".to_string());
        }
        missing
    }

    /// What the event is called, and how often it came up.
    pub fn seen(&self, event: Event) -> (&'static str, u64) {
        (EVENTS[event as usize], self.events[event as usize])
    }
}
