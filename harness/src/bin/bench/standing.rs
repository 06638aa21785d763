//! What a receiver by hand knows beside its waiting bits, what it refuses, and
//! what a block that was used up does to it.

use harness::face::{
    Block, Counts, PackedState, Record, State, CANDIDATE, CONFIRMED, LOCKED, NO_TIME, TRYING,
};
use harness::independent::receiver::RUN;
use harness::independent::{record, Edition, BLOCK};
use harness::refusals::{IMPROPER, RUN_TOO_LONG};

use crate::clock;

/// What a good block says.
#[derive(Clone, Copy)]
pub struct Said {
    pub code: u8,
    pub word: u32,
}

#[derive(Clone, Copy, Default)]
pub struct Standing {
    pub mode: u8,
    good: u8,
    bad: u8,
    time: u8,
    record: Record,
    age: u8,
}

impl Standing {
    pub fn of(state: &State) -> Self {
        let State { mode, good, bad, time, record, age, .. } = *state;
        Standing { mode, good, bad, time, record, age }
    }

    pub fn of_packed(state: &PackedState) -> Self {
        let PackedState { mode, good, bad, time, record, age, .. } = *state;
        Standing { mode, good, bad, time, record, age }
    }

    /// The state with these bits waiting.
    pub fn with_bytes(self, waiting: u8, bits: [u8; BLOCK]) -> State {
        let Standing { mode, good, bad, time, record, age } = self;
        State { mode, good, bad, waiting, bits, time, record, age }
    }

    /// The packed state with these bits waiting.
    pub fn with_number(self, waiting: u8, bits: u64) -> PackedState {
        let Standing { mode, good, bad, time, record, age } = self;
        PackedState { mode, good, bad, waiting, bits, time, record, age }
    }

    /// What it is after a block that was used up. While hunting that is a good
    /// one. By value and never inlined, so that a loop over bits may keep all it
    /// works on in registers.
    #[inline(never)]
    pub fn after(self, edition: Edition, read: Option<Said>) -> Self {
        match (self.mode, read) {
            (LOCKED, Some(_)) => Standing { bad: 0, ..self.offered(edition, read) },
            (LOCKED, None) if self.bad < 3 => {
                Standing { bad: self.bad + 1, ..self.offered(edition, read) }
            }
            (_, None) => Standing::default(),
            (_, Some(_)) if self.good == 2 => Standing { mode: LOCKED, ..Standing::default() },
            (_, Some(_)) => Standing { mode: TRYING, good: self.good + 1, ..self },
        }
    }

    /// The block as it is offered to the time.
    fn offered(self, edition: Edition, read: Option<Said>) -> Self {
        let age = self.age + u8::from(self.time != NO_TIME);
        if let Some(record) = read.and_then(|said| usable(edition, said)) {
            let held = Record { offset: record.offset, ..self.record };
            let confirmed = matches!(age, 30 | 60 | 90 | 120)
                && clock::minutes_later(edition, held, age / 30) == record;
            let time = if confirmed { CONFIRMED } else { CANDIDATE };
            Standing { time, record, age: 0, ..self }
        } else if age == 120 {
            Standing { time: NO_TIME, record: Record::default(), age: 0, ..self }
        } else {
            Standing { age, ..self }
        }
    }
}

/// The edition of a run, or what the run is refused with before its first bit.
pub fn admitted<S>(
    edition: u16,
    state: &S,
    bits: &[u8],
    is_proper: fn(Edition, &S) -> bool,
) -> Result<Edition, Counts> {
    let edition = Edition::named(edition).map_err(Counts::refused)?;
    if bits.len() > RUN {
        Err(Counts::refused(RUN_TOO_LONG))
    } else if !is_proper(edition, state) {
        Err(Counts::refused(IMPROPER))
    } else {
        Ok(edition)
    }
}

/// Counts a block that was used up.
#[inline]
pub fn count(good: bool, counts: &mut Counts) {
    counts.good += u32::from(good);
    counts.bad += u32::from(!good);
}

/// Keeps the remainder that a bad block tells; 0 leaves the one before.
#[inline]
pub fn tell(remainder: u16, counts: &mut Counts) {
    if remainder != 0 {
        counts.remainder = remainder;
    }
}

/// Counts what was read, keeps what it tells, and answers what a good block says.
#[inline]
pub fn count_read(read: Block, counts: &mut Counts) -> Option<Said> {
    let good = read.refusal == 0;
    count(good, counts);
    tell(read.remainder, counts);
    good.then_some(Said { code: read.code, word: read.word })
}

/// What a usable time block tells.
fn usable(edition: Edition, said: Said) -> Option<Record> {
    let record = record::read(edition, said.code, said.word).ok();
    record.filter(|record| clock::usable(edition, record))
}
