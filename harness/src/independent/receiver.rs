//! The receiver as a history: every bit ever heard is kept, and mode, time,
//! counts and remainder are read off the places where blocks ended in it. What
//! happened to lock and time is kept too, as a list.

use super::{calendar, read, record, Edition, Fault, BLOCK};
use crate::face::{Counts, Record, State, CANDIDATE, CONFIRMED, HUNTING, LOCKED, NO_TIME, TRYING};
use crate::refusals::{NOT_A_BIT, RUN_TOO_LONG, WRONG_CHECK_WORD, WRONG_PREFIX};

/// The longest run.
pub const RUN: usize = 65_536;

/// Good blocks that give lock.
const LOCKING: usize = 3;

/// Bad blocks in a row that lose it.
const LOSING: usize = 4;

/// Blocks in a minute, and so from one time block to the next.
pub const MINUTE: usize = 30;

/// Minutes for which a time is held, so that three time blocks may be missed.
pub const HELD: usize = 4;

/// Good, or bad in some way.
type Verdict = Result<(), Fault>;

/// How a receiver takes time blocks.
#[derive(Clone, Copy)]
struct Rules {
    edition: Edition,
    /// Minutes for which a time is held.
    held: usize,
}

/// What a bit can do to lock and time. No bit does two of these.
#[derive(Clone, Copy, Debug, PartialEq)]
pub enum Event {
    LockCame,
    LockLost,
    /// It became none at its last age while lock stayed.
    TimeDropped,
    /// A usable block was offered; a record that was held before gave way to it.
    RecordMade {
        confirmed: bool,
        displaced: Option<Record>,
    },
}

/// An event, and how many bits were heard when it happened.
#[derive(Clone, Copy, Debug, PartialEq)]
pub struct Happened {
    pub heard: usize,
    pub event: Event,
}

/// A search for blocks, which begins where the one before was given up.
#[derive(Default)]
struct Search {
    from: usize,
    /// Where its first good window begins; from there on every fifty bits are
    /// a block.
    start: Option<usize>,
    /// Which blocks were good, and how the others failed.
    blocks: Vec<Verdict>,
    /// The usable time blocks behind those that gave lock.
    times: Vec<Time>,
}

/// A usable time block.
struct Time {
    /// Its place among the blocks.
    block: usize,
    record: Record,
    confirmed: bool,
}

impl Search {
    /// Bits passed over by the time that `heard` bits were heard.
    fn passed(&self, heard: usize) -> usize {
        // Each judged window passes over one bit, up to the good one.
        let windows = heard.saturating_sub(self.from + BLOCK - 1);
        self.start.map_or(windows, |start| windows.min(start - self.from))
    }

    /// The blocks that ended after `heard` bits.
    fn blocks_since(&self, heard: usize) -> &[Verdict] {
        let ended = self.start.map_or(0, |start| heard.saturating_sub(start) / BLOCK);
        &self.blocks[ended..]
    }

    fn is_locked(&self) -> bool {
        self.blocks.len() >= LOCKING
    }

    fn is_given_up(&self) -> bool {
        self.blocks.iter().take(LOCKING).any(Verdict::is_err) || self.bad_run() >= LOSING
    }

    /// Bad blocks at the end.
    fn bad_run(&self) -> usize {
        self.blocks.iter().rev().take_while(|verdict| verdict.is_err()).count()
    }

    /// The last usable time block, if it is less than so many minutes old, with
    /// its age in blocks.
    fn time(&self, held: usize) -> Option<(&Time, usize)> {
        let time = self.times.last()?;
        let age = self.blocks.len() - 1 - time.block;
        (age < held * MINUTE).then_some((time, age))
    }

    /// Takes in the block whose fifty bits these are, and tells what that did.
    fn take(&mut self, bits: &[u8], rules: Rules) -> Option<Event> {
        let locked = self.is_locked();
        let held = self.time(rules.held).map(|(time, _)| time.record);
        let usable = self.times.len();
        self.judge(bits, rules);
        if self.is_given_up() {
            return locked.then_some(Event::LockLost);
        }
        if !locked {
            return self.is_locked().then_some(Event::LockCame);
        }
        match self.time(rules.held) {
            Some((time, _)) if self.times.len() > usable => {
                Some(Event::RecordMade { confirmed: time.confirmed, displaced: held })
            }
            Some(_) => None,
            None => held.map(|_| Event::TimeDropped),
        }
    }

    /// Judges it, and behind those that gave lock keeps the time that it tells.
    fn judge(&mut self, bits: &[u8], rules: Rules) {
        let place = self.blocks.len();
        let read = read(bits);
        self.blocks.push(read.map(drop));
        let edition = rules.edition;
        let record = read.ok().and_then(|(code, word)| record::read(edition, code, word).ok());
        if let Some(record) = record.filter(|record| calendar::usable(edition, record)) {
            if place >= LOCKING {
                let confirmed = self.confirmed_by(place, &record, rules);
                self.times.push(Time { block: place, record, confirmed });
            }
        }
    }

    /// Whether the usable time block before this one is some whole minutes older,
    /// at most as many as a time is held, and tells a time just as many minutes
    /// earlier. The offset may change.
    fn confirmed_by(&self, place: usize, record: &Record, rules: Rules) -> bool {
        self.times.last().is_some_and(|earlier| {
            let told = Record { offset: earlier.record.offset, ..*record };
            (1..=rules.held).any(|minutes| {
                earlier.block + minutes * MINUTE == place
                    && calendar::minutes_later(rules.edition, earlier.record, minutes) == Ok(told)
            })
        })
    }
}

/// Every bit heard, every search among them, and all that happened.
pub struct History {
    bits: Vec<u8>,
    searches: Vec<Search>,
    events: Vec<Happened>,
    rules: Rules,
}

impl History {
    /// Nothing heard yet.
    pub fn fresh(edition: Edition) -> Self {
        History::holding_for(edition, HELD)
    }

    /// Nothing heard yet, by a receiver that holds a time for so many minutes.
    pub fn holding_for(edition: Edition, held: usize) -> Self {
        let rules = Rules { edition, held };
        let searches = vec![Search::default()];
        History { bits: Vec::new(), searches, events: Vec::new(), rules }
    }

    /// A history, made up, that ends in this proper state. Of blocks long past
    /// only the verdict matters, so their bits are left 0.
    pub fn leading_to(edition: Edition, state: &State) -> Self {
        let mut search = Search::default();
        match state.mode {
            TRYING => search.blocks = vec![Ok(()); state.good.into()],
            LOCKED => {
                search.blocks = vec![Ok(()); LOCKING + HELD * MINUTE];
                search.blocks.extend(vec![Err(WRONG_PREFIX.into()); state.bad.into()]);
            }
            _ => {}
        }
        if state.time != NO_TIME {
            let block = search.blocks.len() - 1 - usize::from(state.age);
            let confirmed = state.time == CONFIRMED;
            search.times.push(Time { block, record: state.record, confirmed });
        }
        search.start = (state.mode != HUNTING).then_some(0);
        let mut bits = vec![0; search.blocks.len() * BLOCK];
        bits.extend(&state.bits[..state.waiting.into()]);
        History { bits, searches: vec![search], ..History::fresh(edition) }
    }

    /// How many bits were heard.
    pub fn heard(&self) -> usize {
        self.bits.len()
    }

    pub fn is_locked(&self) -> bool {
        self.latest().is_locked()
    }

    /// All that happened, in its order. What was made up has no events.
    pub fn events(&self) -> &[Happened] {
        &self.events
    }

    fn latest(&self) -> &Search {
        self.searches.last().expect("there is always a search")
    }

    /// Hears one bit, 0 or 1.
    pub fn hear(&mut self, bit: u8) {
        self.bits.push(bit);
        let heard = self.bits.len();
        let search = self.searches.last_mut().expect("there is always a search");
        let Some(window) = heard.checked_sub(BLOCK).filter(|&window| window >= search.from) else {
            return;
        };
        match search.start {
            None if read(&self.bits[window..]).is_err() => return,
            None => search.start = Some(window),
            Some(start) if !(heard - start).is_multiple_of(BLOCK) => return,
            Some(_) => {}
        }
        let event = search.take(&self.bits[window..], self.rules);
        self.events.extend(event.map(|event| Happened { heard, event }));
        if search.is_given_up() {
            self.searches.push(Search { from: heard, ..Search::default() });
        }
    }

    /// Answers as a run does, with 9 or 1 where it must.
    pub fn run(&mut self, bits: &[u8]) -> Counts {
        if bits.len() > RUN {
            return Counts::refused(RUN_TOO_LONG);
        }
        let before = self.heard();
        let heard = bits.iter().take_while(|&&bit| bit <= 1);
        heard.for_each(|&bit| self.hear(bit));
        let all_heard = self.heard() - before == bits.len();
        let refusal = if all_heard { 0 } else { NOT_A_BIT };
        Counts { refusal, ..self.counts_since(before) }
    }

    /// The counts of all that came after the first `before` bits.
    pub fn counts_since(&self, before: usize) -> Counts {
        let waiting = self.waiting() as u32;
        let mut counts = Counts { waiting, ..Counts::default() };
        let mut told = None;
        for search in self.searches.iter().rev() {
            let blocks = search.blocks_since(before);
            let good = blocks.iter().filter(|verdict| verdict.is_ok()).count();
            counts.good += good as u32;
            counts.bad += (blocks.len() - good) as u32;
            // The last search comes first, and the last remainder told counts.
            told = told.or_else(|| last_told(blocks));
            counts.passed += (search.passed(self.heard()) - search.passed(before)) as u32;
            if search.from <= before {
                break;
            }
        }
        Counts { remainder: told.unwrap_or(0), ..counts }
    }

    fn waiting(&self) -> usize {
        let search = self.latest();
        match search.start {
            None => (self.heard() - search.from).min(BLOCK - 1),
            Some(start) => (self.heard() - start) % BLOCK,
        }
    }

    /// The state in which this history leaves a receiver.
    pub fn state(&self) -> State {
        let search = self.latest();
        let waiting = self.waiting();
        let mut state = State { waiting: waiting as u8, ..State::FRESH };
        state.bits[..waiting].copy_from_slice(&self.bits[self.heard() - waiting..]);
        if search.is_locked() {
            state.mode = LOCKED;
            state.bad = search.bad_run() as u8;
        } else if search.start.is_some() {
            state.mode = TRYING;
            state.good = search.blocks.len() as u8;
        }
        if let Some((time, age)) = search.time(self.rules.held) {
            state.time = if time.confirmed { CONFIRMED } else { CANDIDATE };
            state.record = time.record;
            state.age = age as u8;
        }
        state
    }
}

/// The remainder of the last block with a wrong check word, if there is one.
fn last_told(blocks: &[Verdict]) -> Option<u16> {
    let faults = blocks.iter().rev().filter_map(|verdict| verdict.err());
    let mut told = faults.filter(|fault| fault.refusal == WRONG_CHECK_WORD);
    told.next().map(|fault| fault.remainder)
}

/// Whether a state is proper under an edition, which must have the held record.
pub fn is_proper(edition: Edition, state: &State) -> bool {
    let counted = match state.mode {
        HUNTING => (state.good, state.bad) == (0, 0),
        TRYING => matches!((state.good, state.bad), (1..=2, 0)),
        LOCKED => matches!((state.good, state.bad), (0, 0..=3)),
        _ => false,
    };
    let timed = match state.time {
        NO_TIME => (state.record, state.age) == (Record::default(), 0),
        CANDIDATE | CONFIRMED => {
            state.mode == LOCKED && state.age <= 119 && calendar::usable(edition, &state.record)
        }
        _ => false,
    };
    let filled =
        state.bits.split_at_checked(state.waiting.into()).is_some_and(|(waiting, free)| {
            !free.is_empty()
                && waiting.iter().all(|&bit| bit <= 1)
                && free.iter().all(|&bit| bit == 0)
        });
    counted && timed && filled
}
