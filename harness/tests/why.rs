//! Request No. 11 against the library: feeds that are made to end in each of the
//! seven ways, asked after every bit, in both editions and from every place of a
//! block on. `Watcher` compares each answer with the list of what happened.

use harness::compare::Watcher;
use harness::face::Record;
use harness::feeds::{time_block, unusable_time_block, MINUTE};
use harness::independent::watch::Why;
use harness::independent::{block, Edition, BLOCK, EDITIONS};
use harness::random::{report, Random};
use harness::stories::{Story, LAST_AGE};

/// The time must stand as the story has it, before the first bit and after each;
/// gives how many bits there were.
fn must_be_told(story: &Story) -> usize {
    let mut watcher = Watcher::fresh(story.edition);
    let mut standings = story.standings();
    assert_eq!(Some(watcher.why()), standings.next());
    for (heard, (&bit, expected)) in (1..).zip(story.bits.iter().zip(standings)) {
        assert_eq!(watcher.feed(bit), expected, "{heard} heard, {:?}", story.edition);
    }
    assert_eq!((watcher.why(), watcher.watch().fed), (story.end(), story.bits.len() as u64));
    story.bits.len()
}

/// The story that comes out must be told in both editions, with up to 49 zeros
/// before its first block, so that its bits fall on every place.
fn must_be_told_everywhere(what: &str, tell: impl Fn(Story) -> Story) {
    let starts =
        EDITIONS.into_iter().flat_map(|edition| (0..BLOCK).map(move |zeros| (edition, zeros)));
    let count =
        starts.map(|(edition, zeros)| must_be_told(&tell(Story::of(edition).zeros(zeros)))).sum();
    report(&format!("bits of feeds, {what}, bit by bit"), count);
}

/// Time blocks that a receiver cannot use.
fn unusable(edition: Edition) -> Vec<u64> {
    let mut random = Random::named("unusable");
    (0..5).map(|_| unusable_time_block(edition, &mut random)).collect()
}

#[test]
fn never_locked() {
    must_be_told_everywhere("never locked", |story| {
        let filler = story.filler();
        let story = story.zeros(120).blocks(&[filler, filler ^ 1, filler, filler, filler ^ 2]);
        story.nearly_lock()
    });
}

/// Neither fillers nor other codes, nor what is bad or not usable, however long.
#[test]
fn no_usable_block_since_lock() {
    must_be_told_everywhere("no usable block since lock", |story| {
        let (filler, unusable) = (story.filler(), unusable(story.edition));
        let [bad, no_prefix, ..] = story.four_bad();
        let story = story.lock().blocks(&[bad, no_prefix, bad, block(1, 0)]);
        let story = story.blocks(&unusable).blocks(&[bad, bad, no_prefix, filler]);
        story.miss(LAST_AGE + 2)
    });
}

/// The three blocks that give lock are not offered to the time.
#[test]
fn time_blocks_that_give_lock() {
    must_be_told_everywhere("lock by time blocks", |story| {
        let told = [0, 1, 2].map(|minutes| time_block(story.told(minutes)));
        story.turn(&told, |_| Why::NoUsableBlock).miss(MINUTE - 1).begin(3).miss(1)
    });
}

#[test]
fn a_lost_lock() {
    must_be_told_everywhere("a lost lock", |story| {
        story.lock().miss(1).lose().zeros(60).nearly_lock()
    });
}

/// Of several losses the last is told, as soon as it comes, and none while locked.
#[test]
fn the_last_of_several_losses() {
    must_be_told_everywhere("several losses", |story| {
        let filler = story.filler();
        let story = story.lock().lose().zeros(13).lock().miss(2).lose().zeros(1);
        let story = story.blocks(&[filler, filler, filler ^ 1]).lock().begin(0).lose();
        story.lock().begin(0).miss(MINUTE - 1).confirm(1).lose().zeros(60)
    });
}

/// What a story goes on with.
type Telling = fn(Story) -> Story;

/// Lock is lost with every kind of time, and what was known is not told again.
#[test]
fn what_was_before_the_present_lock_is_not_told() {
    let before: [(&str, Telling); 5] = [
        ("no time", |story| story.miss(1)),
        ("a candidate", |story| story.begin(0).miss(40)),
        ("a candidate that displaced", |story| story.begin(0).miss(1).displace(1).miss(1)),
        ("a confirmed time", |story| story.begin(0).miss(MINUTE - 1).confirm(1).miss(1)),
        ("a dropped time", |story| story.begin(0).drop_after(LAST_AGE).miss(1)),
    ];
    for (what, held) in before {
        must_be_told_everywhere(&format!("{what} before the present lock"), |story| {
            held(story.lock()).lose().zeros(9).lock().miss(2).begin(2).miss(1)
        });
    }
}

#[test]
fn a_candidate_up_to_its_last_age() {
    must_be_told_everywhere("a candidate that is dropped", |story| {
        story.lock().miss(3).begin(0).drop_after(LAST_AGE).miss(3)
    });
}

#[test]
fn a_confirmed_time_up_to_its_last_age() {
    must_be_told_everywhere("a confirmed time that is dropped", |story| {
        let story = story.lock().begin(0).miss(MINUTE - 1).confirm(1);
        story.drop_after(LAST_AGE).miss(3)
    });
}

/// After a drop nothing is held, so that the next candidate displaces nothing.
#[test]
fn the_last_of_several_drops() {
    must_be_told_everywhere("several drops", |story| {
        let story = story.lock().begin(0).drop_after(LAST_AGE).miss(MINUTE);
        let story = story.begin(6).displace(8).drop_after(LAST_AGE).miss(1);
        story.begin(20).miss(MINUTE - 1).confirm(21).drop_after(LAST_AGE).miss(1)
    });
}

/// Of several displacements the last is told, and none once the time is confirmed.
#[test]
fn the_last_of_several_displacements() {
    must_be_told_everywhere("several displacements", |story| {
        let story = story.lock().begin(0).displace(1).displace(1).miss(MINUTE - 2).displace(2);
        let story = story.miss(MINUTE - 1).confirm(3).miss(MINUTE - 1).displace(5).miss(4);
        story.displace(6).miss(MINUTE - 1).confirm(7).miss(2)
    });
}

/// Bad blocks age a time, and three in a row leave the lock: so the last age may
/// come with a bad block.
#[test]
fn a_time_dropped_at_a_bad_block() {
    for bad in 1..=3 {
        must_be_told_everywhere(&format!("dropped at bad block {bad}"), |story| {
            let four = story.four_bad();
            let story = story.lock().begin(0).miss(LAST_AGE - bad).blocks(&four[..bad - 1]);
            let story = story.turn(&four[bad - 1..bad], Why::BlockMissing);
            // One more bad block after the third loses the lock.
            if bad == 3 {
                story.turn(&four[3..], Why::LockLost).zeros(20)
            } else {
                story.miss(2)
            }
        });
    }
}

/// The fourth bad block in a row at the last age: lock is lost, and no drop is told,
/// not even when lock comes again.
#[test]
fn a_lock_lost_at_the_last_age() {
    for held in [Story::clone, |story: &Story| story.clone().miss(MINUTE - 1).confirm(1)] {
        must_be_told_everywhere("lost at the last age", |story| {
            let story = held(&story.lock().begin(0)).miss(LAST_AGE - 4).lose();
            story.zeros(20).lock().miss(3)
        });
    }
}

/// A time block that comes when the record has this age, and is or is not as many
/// minutes later; then what it left, up to its last age.
fn must_be_told_at_age(edition: Edition, confirmed: bool, age: usize) -> usize {
    let start = Story::of(edition).lock().begin(0);
    let (start, first) = match confirmed {
        true => (start.miss(MINUTE - 1).confirm(1), 1),
        false => (start, 0),
    };
    let missed = start.miss(age - 1);
    let right = first + age / MINUTE;
    let whole = age.is_multiple_of(MINUTE);
    let tell = |minutes: usize| {
        let story = missed.clone();
        let told = if whole && minutes == right {
            story.confirm(minutes)
        } else {
            story.displace(minutes)
        };
        must_be_told(&told.drop_after(LAST_AGE).miss(1))
    };
    [right, right + 1].map(tell).into_iter().sum()
}

#[test]
fn a_time_block_at_every_age() {
    let mut count = 0;
    for edition in EDITIONS {
        for age in 1..=LAST_AGE {
            count += must_be_told_at_age(edition, false, age);
            count += must_be_told_at_age(edition, true, age);
        }
    }
    report("bits of feeds with a time block at every age, bit by bit", count);
}

/// A block later nothing is held any more.
#[test]
fn a_time_block_behind_the_last_age() {
    must_be_told_everywhere("a time block behind the last age", |story| {
        story.lock().begin(0).drop_after(LAST_AGE).begin(4).miss(MINUTE - 1).confirm(5)
    });
}

/// A record is usable in one edition and not in the other: week 53 of a leap year
/// that starts on a Wednesday, by each edition's leap code.
#[test]
fn the_edition_decides_what_is_usable() {
    for edition in EDITIONS {
        let leap = edition.leap_codes()[0];
        let long = Record { leap, start_day: 3, week: 53, ..Story::of(edition).told(0) };
        let sent = time_block(long);
        must_be_told(&Story::of(edition).lock().turn(&[sent], |_| Why::TooYoung).miss(2));
        must_be_told(&Story::of(edition.other()).lock().blocks(&[sent]).miss(2));
    }
}
