//! Request No. 1 against the library: what its receiver makes of the bits that were
//! decided, beside the history of the bits that were sent.

use harness::face::{self, Counts, Decided, State, CONFIRMED};
use harness::feeds::{troubled, MISHAPS};
use harness::independent::receiver::{History, RUN};
use harness::independent::{bits_in, Edition, EDITIONS};
use harness::random::{report, Random};
use harness::readings::{clear_halves, doubtful_halves, even_reading, lead_bits, led, Halves};
use harness::stored;

/// What is counted in runs as long as they can be, and the state behind them.
type Heard = (Vec<Counts>, State);

/// The history of some bits.
fn remembered(edition: Edition, bits: &[u8]) -> Heard {
    let mut history = History::fresh(edition);
    let counts = bits.chunks(RUN).map(|run| history.run(run)).collect();
    (counts, history.state())
}

/// As a caller does it: the readings are decided, and the front of the slice is fed.
fn received(edition: Edition, readings: &[f32], margin: f32, polarity: u8) -> Heard {
    let mut lent = vec![0xA5; readings.len()];
    let Decided { refusal, bits, .. } = face::decide(readings, margin, polarity, &mut lent);
    assert_eq!(refusal, 0);
    let mut state = face::fresh();
    let runs = lent[..bits as usize].chunks(RUN);
    let counts = runs.map(|run| face::run(edition.number(), &mut state, run)).collect();
    (counts, state)
}

/// A bit as it was sent, or one that nobody can tell, which goes on as 0.
type Sent = Option<u8>;

/// What the board reads of a bit.
fn halves_of(random: &mut Random, sent: Sent, polarity: u8, margin: f32) -> Halves {
    match sent {
        Some(bit) => clear_halves(random, bit, polarity, margin),
        None => doubtful_halves(random, margin),
    }
}

/// Sends bits in both pairings and under both polarities; gives the last state.
fn must_be_heard(random: &mut Random, edition: Edition, sent: &[Sent]) -> State {
    let mut last = State::FRESH;
    for polarity in [0, 1] {
        let on_the_air = sent.iter().map(|bit| bit.unwrap_or(0));
        let bits: Vec<u8> = lead_bits(polarity).into_iter().chain(on_the_air).collect();
        let expected = remembered(edition, &bits);
        for pairing in [0, 1] {
            let margin = (1 + random.below(20)) as f32;
            let halves: Vec<Halves> =
                sent.iter().map(|&bit| halves_of(random, bit, polarity, margin)).collect();
            let mut readings = led(pairing, &halves);
            // Sometimes the last one has no partner.
            let unpaired = random.below(2);
            readings.extend((0..unpaired).map(|_| even_reading(random)));
            let heard = received(edition, &readings, margin, polarity);
            assert_eq!(heard, expected, "pairing {pairing}, polarity {polarity}, {edition:?}");
        }
        last = expected.1;
    }
    last
}

#[test]
fn the_stored_feeds() {
    let mut random = Random::named("stored feeds as readings");
    let all = stored::all();
    let mut confirmed = 0;
    for feed in &all {
        let sent: Vec<Sent> = bits_in(&feed.text).into_iter().map(Some).collect();
        let state = must_be_heard(&mut random, feed.edition, &sent);
        confirmed += usize::from(state.time == CONFIRMED);
    }
    assert!((5..45).contains(&confirmed), "{confirmed} of {}", all.len());
    report("stored feeds as readings", 4 * all.len());
}

/// Feeds with mishaps, in which some bits are doubtful besides.
#[test]
fn feeds_with_doubtful_bits() {
    const FEEDS: usize = 40;
    let mut random = Random::named("doubtful feeds");
    let mut locked = 0;
    for edition in EDITIONS {
        for _ in 0..FEEDS {
            let every = 20 + random.below(200);
            let any = |random: &mut Random| MISHAPS[random.below(MISHAPS.len())];
            let feed = troubled(edition, &mut random, 6, every, any);
            let doubtful = 10 + random.below(2_000);
            let sent = feed.iter().map(|&bit| (random.below(doubtful) != 0).then_some(bit));
            let sent: Vec<Sent> = sent.collect();
            let state = must_be_heard(&mut random, edition, &sent);
            locked += usize::from(state.mode == face::LOCKED);
        }
    }
    assert!((FEEDS / 4..FEEDS * 2).contains(&locked), "{locked} of {}", 2 * FEEDS);
    report("feeds with doubtful bits", 4 * 2 * FEEDS);
}
