//! The receiver that is watched: a watch of the library beside the list of all
//! that happened, under one edition.

use std::hint::black_box;

use super::{Guarded, Lent};
use crate::face::{self, Counts, Standing, Watch};
use crate::independent::watch::{self, is_proper, Watched, Why};
use crate::independent::Edition;
use crate::refusals::RUN_TOO_LONG;

/// A watch of the library and the list of what happened.
pub struct Watcher {
    edition: Edition,
    watch: Watch,
    watched: Watched,
}

impl Watcher {
    /// A fresh one, as the library gives it.
    pub fn fresh(edition: Edition) -> Self {
        let watch = face::watch_fresh();
        let watched = Watched::fresh(edition);
        assert_eq!(watch, watched.watch(), "fresh watch");
        Watcher { edition, watch, watched }
    }

    /// One that goes on from a proper watch.
    pub fn going_on_from(edition: Edition, watch: Watch) -> Self {
        assert!(is_proper(edition, &watch), "{watch:?}");
        let watched = Watched::leading_to(edition, &watch);
        assert_eq!(watched.watch(), watch, "history that leads to a watch");
        Watcher { edition, watch, watched }
    }

    /// The watch on which both agree.
    pub fn watch(&self) -> &Watch {
        &self.watch
    }

    /// Compares a run of one bit, and then how the time stands; gives this.
    pub fn feed(&mut self, bit: u8) -> Why {
        self.run(&[bit]);
        self.why()
    }

    /// Compares a run; gives the counts on which all agree.
    pub fn run(&mut self, bits: &[u8]) -> Counts {
        let mut lent = Lent::holding(self.watch);
        let mut lent_bits = Guarded::holding(bits);
        let answer = face::watch_run(self.edition.number(), &mut lent.value, lent_bits.content());
        let expected = self.watched.run(bits);
        let watch = self.watched.watch();
        let about = || format!("a run of {} bits, then {watch:?}, {:?}", bits.len(), self.edition);
        assert_eq!((answer, black_box(lent)), (expected, Lent::holding(watch)), "{}", about());
        assert!(lent_bits.after() == Guarded::holding(bits), "a run changed its bits");
        if answer.refusal != RUN_TOO_LONG {
            let mut state = self.watch.state;
            let plain = face::run_packed(self.edition.number(), &mut state, bits);
            assert_eq!((plain, state), (answer, watch.state), "not watched, {}", about());
        }
        self.watch = watch;
        expected
    }

    /// Compares how the time stands, by the list and by the watch alone; gives this.
    pub fn why(&self) -> Why {
        let answer = face::why(self.edition.number(), self.watch);
        let expected = self.watched.why();
        assert_eq!(answer, Standing::from(Ok(expected)), "{:?}, {:?}", self.watch, self.edition);
        expected
    }
}

/// Asks how the time stands by a watch, proper or not, under any number; gives
/// the answer on which both agree.
pub fn asking(number: u16, watch: Watch) -> Result<Why, u8> {
    let expected = watch::why(number, &watch);
    assert_eq!(face::why(number, watch), Standing::from(expected), "{number}, {watch:?}");
    expected
}

/// Compares a run that is refused before its first bit, and must leave the watch as
/// it is; gives the refusal on which both agree.
pub fn refused_run(number: u16, watch: Watch, bits: &[u8]) -> u8 {
    let mut lent = Lent::holding(watch);
    let mut lent_bits = Guarded::holding(bits);
    let answer = face::watch_run(number, &mut lent.value, lent_bits.content());
    let refusal = watch::refusal(number, &watch, bits.len()).expect("a refusal");
    let about = || format!("a run of {} bits, edition {number}, {watch:?}", bits.len());
    assert_eq!(answer, Counts::refused(refusal), "{}", about());
    assert_eq!(black_box(lent), Lent::holding(watch), "a refused watch, {}", about());
    assert!(lent_bits.after() == Guarded::holding(bits), "a run changed its bits");
    refusal
}
