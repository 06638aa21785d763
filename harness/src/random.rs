//! Random numbers that come out the same in every run with the same seed.

use std::env;

use crate::face::{
    Date, Polish, Record, Report, State, Watch, CANDIDATE, CONFIRMED, LOCKED, TRYING,
};
use crate::independent::joining::LARGEST;
use crate::independent::journal::MOST;
use crate::independent::packed_state::packed;
use crate::independent::polish::SYMBOLS;
use crate::independent::{bits_of, block, calendar, Edition, BLOCK};

/// The seed: `HARNESS_SEED` if it is set, else a fixed one.
pub fn seed() -> u64 {
    match env::var("HARNESS_SEED") {
        Ok(text) => {
            text.parse().unwrap_or_else(|_| panic!("HARNESS_SEED: expected a number, got '{text}'"))
        }
        Err(_) => 198_000,
    }
}

/// Says how much was compared, and with which seed it can be done again.
pub fn report(what: &str, count: usize) {
    println!("{what}: {count} compared, seed {}", seed());
}

/// Good blocks: the two extremes, then random ones.
pub fn good_blocks(name: &str, count: usize) -> Vec<u64> {
    let mut random = Random::named(name);
    let mut blocks = vec![block(0, 0), block(15, u32::MAX)];
    blocks.resize_with(count, || random.block());
    blocks
}

/// The generator known as splitmix64.
pub struct Random(u64);

impl Random {
    /// A stream of its own for each name, so that tests may run in any order.
    pub fn named(name: &str) -> Self {
        Random(name.bytes().fold(seed(), |state, byte| Random(state ^ u64::from(byte)).number()))
    }

    /// A stream that is the same whatever the seed.
    pub fn fixed() -> Self {
        Random(0)
    }

    pub fn number(&mut self) -> u64 {
        self.0 = self.0.wrapping_add(0x9E37_79B9_7F4A_7C15);
        let mut mixed = self.0;
        mixed = (mixed ^ mixed >> 30).wrapping_mul(0xBF58_476D_1CE4_E5B9);
        mixed = (mixed ^ mixed >> 27).wrapping_mul(0x94D0_49BB_1331_11EB);
        mixed ^ mixed >> 31
    }

    /// A number from 0 to `end`, without `end`.
    pub fn below(&mut self, end: usize) -> usize {
        (self.number() % end as u64) as usize
    }

    /// A number from `first` to `last`, both counted.
    pub fn between(&mut self, first: u8, last: u8) -> u8 {
        first + self.below(usize::from(last - first) + 1) as u8
    }

    /// A code from 0 to 15 and a word.
    pub fn code_and_word(&mut self) -> (u8, u32) {
        let number = self.number();
        ((number >> 60) as u8, number as u32)
    }

    /// A good block.
    pub fn block(&mut self) -> u64 {
        let (code, word) = self.code_and_word();
        block(code, word)
    }

    /// As many random bits.
    pub fn bits(&mut self, len: usize) -> Vec<u8> {
        let numbers = std::iter::repeat_with(|| self.number());
        numbers
            .flat_map(|number| (0..64).map(move |place| (number >> place & 1) as u8))
            .take(len)
            .collect()
    }

    /// A remainder of thirteen bits.
    pub fn remainder(&mut self) -> u16 {
        self.number() as u16 & LARGEST
    }

    /// A byte that is not a bit.
    pub fn not_a_bit(&mut self) -> u8 {
        2 + self.below(254) as u8
    }

    /// The block with one byte that is not a bit.
    pub fn not_all_bits(&mut self, block: u64) -> [u8; BLOCK] {
        let mut bits = bits_of(block);
        bits[self.below(BLOCK)] = self.not_a_bit();
        bits
    }

    /// A change of exactly `count` of a block's places.
    pub fn change(&mut self, count: usize) -> u64 {
        self.places(count, BLOCK)
    }

    /// Exactly `count` of so many places, as the ones of a number.
    pub fn places(&mut self, count: usize, all: usize) -> u64 {
        let mut places: u64 = 0;
        while places.count_ones() < count as u32 {
            places |= 1 << self.below(all);
        }
        places
    }

    /// An offset in its range, -32 to 31.
    pub fn offset(&mut self) -> i8 {
        self.below(64) as i8 - 32
    }

    /// A record with every field in range. Its year may lack its week.
    pub fn record(&mut self) -> Record {
        Record {
            leap: self.between(0, 3),
            start_day: self.between(1, 7),
            week: self.between(1, 53),
            weekday: self.between(1, 7),
            hour: self.between(0, 23),
            minute: self.between(0, 59),
            offset: self.offset(),
        }
    }

    /// A record that the receiver can use under an edition.
    pub fn usable_record(&mut self, edition: Edition) -> Record {
        let mut records = std::iter::repeat_with(|| self.record());
        records.find(|record| calendar::usable(edition, record)).expect("there is no end")
    }

    /// A proper state with nothing waiting.
    pub fn proper_state(&mut self, edition: Edition) -> State {
        match self.below(5) {
            0 => State::FRESH,
            1 => State { mode: TRYING, good: self.between(1, 2), ..State::FRESH },
            2 => self.locked_state(),
            _ => {
                let time = self.between(CANDIDATE, CONFIRMED);
                let age = self.between(0, 119);
                let record = self.usable_record(edition);
                State { time, record, age, ..self.locked_state() }
            }
        }
    }

    /// A locked state with nothing waiting and no time.
    pub fn locked_state(&mut self) -> State {
        State { mode: LOCKED, bad: self.between(0, 3), ..State::FRESH }
    }

    /// A proper watch of any proper state, with any numbers that go with it.
    pub fn proper_watch(&mut self, edition: Edition) -> Watch {
        let waiting = self.below(BLOCK);
        let state = self.proper_state(edition).with_waiting(&self.bits(waiting));
        let fed = self.number() >> self.below(64);
        let mut up_to_fed = |used: bool| match self.below(4) {
            0 if used => fed,
            1 | 2 if used => self.number() % fed.max(1),
            _ => 0,
        };
        Watch {
            state: packed(&state).expect("places that hold bits"),
            fed,
            lost: up_to_fed(true),
            dropped: up_to_fed(state.mode == LOCKED),
            displaced: up_to_fed(state.time == CANDIDATE),
        }
    }

    /// A proper report of any size, with some of the codes left out.
    pub fn proper_report(&mut self) -> Report {
        let blocks = (self.number() % (MOST + 1)) >> self.below(33);
        let mut rest = self.number() % (blocks + 1);
        let mut report = Report { blocks, good: rest, ..Report::FRESH };
        for _ in 0..self.below(16) {
            let some = self.number() % (rest + 1);
            report.codes[self.below(16)] += some;
            rest -= some;
        }
        report.codes[self.below(16)] += rest;
        report.fillers = self.number() % (report.codes[0] + 1);
        report
    }

    /// A date of 1900 to 2100. Its month may lack its day.
    pub fn date(&mut self) -> Date {
        Date {
            year: 1900 + self.below(201) as u16,
            month: self.between(1, 12),
            day: self.between(1, 31),
            hour: self.between(0, 23),
            minute: self.between(0, 59),
            offset: self.offset(),
        }
    }

    /// A time for the Polish frame.
    pub fn polish(&mut self) -> Polish {
        let number = self.number();
        let flags = std::array::from_fn(|place| (number >> place & 1) as u8);
        Polish::of_bytes((number >> 34) as u32, flags)
    }

    /// A pattern of exactly `count` wrong symbols of a codeword.
    pub fn pattern(&mut self, count: usize) -> u64 {
        let places = self.places(count, SYMBOLS);
        let wrong = (0..SYMBOLS).filter(|place| places >> place & 1 != 0);
        wrong.fold(0, |pattern, place| pattern | u64::from(self.between(1, 15)) << (4 * place))
    }

    /// The same with one byte, whichever, of any value.
    pub fn with_any_byte<const N: usize>(&mut self, mut bytes: [u8; N]) -> [u8; N] {
        bytes[self.below(N)] = self.number() as u8;
        bytes
    }
}
