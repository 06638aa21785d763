//! Why a dial is blank, by the list of all that happened to a receiver. Every
//! answer is looked up in the list, from its end; nothing is kept beside it.

use super::packed_state::{self, packed, unpacked};
use super::receiver::{Event, History, RUN};
use super::{bits_in, Edition};
use crate::face::{Counts, Record, Watch, CANDIDATE, CONFIRMED, LOCKED, NO_TIME};
use crate::refusals::{IMPROPER, RUN_TOO_LONG};

/// How the time stands, with the bit of which the line tells.
#[derive(Clone, Copy, Debug, PartialEq)]
pub enum Why {
    Confirmed,
    LockLost(u64),
    NeverLocked,
    BlockMissing(u64),
    NoUsableBlock,
    NotNextMinute(u64),
    TooYoung,
}

impl Why {
    /// The words of its line, which a bit may follow.
    pub fn words(self) -> &'static str {
        match self {
            Why::Confirmed => "confirmed",
            Why::LockLost(_) => "lock lost at bit",
            Why::NeverLocked => "never locked",
            Why::BlockMissing(_) => "the expected block missing at bit",
            Why::NoUsableBlock => "no usable block since lock",
            Why::NotNextMinute(_) => "not the next minute at bit",
            Why::TooYoung => "candidate too young",
        }
    }

    /// The line of the program, without its newline.
    pub fn line(self) -> String {
        match self {
            Why::LockLost(bit) | Why::BlockMissing(bit) | Why::NotNextMinute(bit) => {
                format!("{} {bit}", self.words())
            }
            _ => self.words().into(),
        }
    }
}

/// A history whose bits are counted as a watch counts them.
pub struct Watched {
    history: History,
    /// Bits fed before, and how many of the history's own are made up for them.
    fed_before: u64,
    made_up: usize,
    /// Events among the bits fed before, with their bits.
    earlier: Vec<(u64, Event)>,
}

impl Watched {
    /// Nothing heard yet.
    pub fn fresh(edition: Edition) -> Self {
        Watched::leading_to(edition, &Watch::default())
    }

    /// A history and a list, both made up, that end in this proper watch.
    pub fn leading_to(edition: Edition, watch: &Watch) -> Self {
        let state = unpacked(&watch.state).expect("fifty bits");
        let history = History::leading_to(edition, &state);
        let made_up = history.heard();
        let earlier = events_leading_to(watch);
        Watched { history, fed_before: watch.fed, made_up, earlier }
    }

    /// How many bits were fed.
    pub fn fed(&self) -> u64 {
        self.fed_when(self.history.heard())
    }

    fn fed_when(&self, heard: usize) -> u64 {
        self.fed_before + (heard - self.made_up) as u64
    }

    /// Hears one bit, 0 or 1.
    pub fn hear(&mut self, bit: u8) {
        self.history.hear(bit);
    }

    /// Answers as a run does, with 9 or 1 where it must.
    pub fn run(&mut self, bits: &[u8]) -> Counts {
        if is_too_long(self.fed(), bits.len()) {
            return Counts::refused(RUN_TOO_LONG);
        }
        self.history.run(bits)
    }

    /// All that happened, the last first, each with its bit.
    fn back(&self) -> impl Iterator<Item = (u64, Event)> + '_ {
        let since = self.history.events().iter().rev();
        let since = since.map(|happened| (self.fed_when(happened.heard), happened.event));
        since.chain(self.earlier.iter().rev().copied())
    }

    /// The same since the present lock came, where there is one.
    fn back_to_lock(&self) -> impl Iterator<Item = (u64, Event)> + '_ {
        self.back().take_while(|&(_, event)| event != Event::LockCame)
    }

    fn last_loss(&self) -> Option<u64> {
        self.back().find(|&(_, event)| event == Event::LockLost).map(|(bit, _)| bit)
    }

    fn last_drop_since_lock(&self) -> Option<u64> {
        self.back_to_lock().find(|&(_, event)| event == Event::TimeDropped).map(|(bit, _)| bit)
    }

    /// The bit of the block that made the held record, if this displaced another.
    fn displacement(&self) -> Option<u64> {
        let mut made = self.back().filter_map(|(bit, event)| match event {
            Event::RecordMade { displaced, .. } => Some(displaced.map(|_| bit)),
            _ => None,
        });
        made.next().expect("a held record was made")
    }

    /// How the time stands: each case by the words of the request.
    pub fn why(&self) -> Why {
        let state = self.history.state();
        if state.time == CONFIRMED {
            Why::Confirmed
        } else if state.mode != LOCKED {
            self.last_loss().map_or(Why::NeverLocked, Why::LockLost)
        } else if state.time == NO_TIME {
            self.last_drop_since_lock().map_or(Why::NoUsableBlock, Why::BlockMissing)
        } else {
            self.displacement().map_or(Why::TooYoung, Why::NotNextMinute)
        }
    }

    /// The watch that is to be kept of all this.
    pub fn watch(&self) -> Watch {
        let state = self.history.state();
        let dropped = (state.mode == LOCKED).then(|| self.last_drop_since_lock()).flatten();
        let displaced = (state.time == CANDIDATE).then(|| self.displacement()).flatten();
        Watch {
            state: packed(&state).expect("places that hold bits"),
            fed: self.fed(),
            lost: self.last_loss().unwrap_or(0),
            dropped: dropped.unwrap_or(0),
            displaced: displaced.unwrap_or(0),
        }
    }
}

/// Events that are enough for this watch. Where it tells no bit, none is asked for.
fn events_leading_to(watch: &Watch) -> Vec<(u64, Event)> {
    let Watch { state, lost, dropped, displaced, .. } = *watch;
    let mut events = Vec::new();
    if lost != 0 {
        events.push((lost, Event::LockLost));
    }
    if state.mode == LOCKED {
        events.push((0, Event::LockCame));
    }
    if dropped != 0 {
        events.push((dropped, Event::TimeDropped));
    }
    if state.time != NO_TIME {
        let confirmed = state.time == CONFIRMED;
        let other = (displaced != 0).then_some(Record::default());
        events.push((displaced, Event::RecordMade { confirmed, displaced: other }));
    }
    events
}

/// Whether a run of so many bits is too long by itself or for the bits fed before.
fn is_too_long(fed: u64, len: usize) -> bool {
    len > RUN || len as u64 > u64::MAX - fed
}

/// Whether a watch is proper under an edition.
pub fn is_proper(edition: Edition, watch: &Watch) -> bool {
    let Watch { state, fed, lost, dropped, displaced } = *watch;
    packed_state::is_proper(edition, &state)
        && [lost, dropped, displaced].into_iter().all(|bit| bit <= fed)
        && (state.mode == LOCKED || dropped == 0)
        && (state.time == CANDIDATE || displaced == 0)
}

/// Why a run of so many bits is refused before its first bit, if it is.
pub fn refusal(number: u16, watch: &Watch, len: usize) -> Option<u8> {
    match Edition::named(number) {
        Err(refusal) => Some(refusal),
        Ok(_) if is_too_long(watch.fed, len) => Some(RUN_TOO_LONG),
        Ok(edition) => (!is_proper(edition, watch)).then_some(IMPROPER),
    }
}

/// How the time stands by the watch alone, or the refusal.
pub fn why(number: u16, watch: &Watch) -> Result<Why, u8> {
    let edition = Edition::named(number)?;
    if !is_proper(edition, watch) {
        return Err(IMPROPER);
    }
    Ok(Watched::leading_to(edition, watch).why())
}

/// How the time stands at the end of a program's input: characters 0 and 1 are bits,
/// a newline is skipped, and anything else ends the input.
pub fn after_input(edition: Edition, input: &[u8]) -> Why {
    let mut watched = Watched::fresh(edition);
    bits_in(input).into_iter().for_each(|bit| watched.hear(bit));
    watched.why()
}
