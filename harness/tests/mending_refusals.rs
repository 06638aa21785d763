//! Request No. 8 against the library: what mending refuses, in which order, and
//! that it then changes nothing.

use harness::compare::mending;
use harness::face::{self, Mended};
use harness::fields::{one_changed, one_replaced};
use harness::independent::{bits_of, BLOCK, PREFIX};
use harness::random::{report, Random};
use harness::refusals::{NOT_A_BIT, NO_SUCH_CHANGE, WRONG_LENGTH};

/// With place 3 and place 40 changed, no change within six places makes a good block.
const FAR: u64 = 1 << 46 | 1 << 9;

/// The library must refuse these bytes and leave them as they are.
fn must_be_refused(bytes: &[u8], refusal: u8) {
    let expected = (Mended::from(Err(refusal)), bytes.to_vec());
    assert_eq!(mending(bytes), expected, "mending {bytes:?}");
}

/// Good blocks, blocks that can be mended and blocks that cannot, the prefix wrong
/// in some of them.
fn starts() -> Vec<u64> {
    let any = Random::named("blocks to be refused").block();
    let changes = [0, 1, PREFIX, 0b10_1101 << 20, FAR, FAR | PREFIX];
    [PREFIX, any].into_iter().flat_map(|good| changes.map(|change| good ^ change)).collect()
}

#[test]
fn every_wrong_length() {
    let mut random = Random::named("lengths to be mended");
    let mut count = 0;
    for len in (0..=200).filter(|&len| len != 50) {
        let blocks = starts().into_iter().map(|start| bits_of(start).repeat(4)[..len].to_vec());
        for bits in blocks.chain([random.bits(len), vec![0; len], vec![1; len]]) {
            // The length comes before the values.
            for bytes in [2, 255].into_iter().flat_map(|byte| one_replaced(&bits, byte)) {
                must_be_refused(&bytes, WRONG_LENGTH);
                count += 1;
            }
        }
        must_be_refused(&vec![7; len], WRONG_LENGTH);
    }
    report("wrong lengths", count);
}

#[test]
fn every_byte_value_at_every_place() {
    let mut count = 0;
    for start in starts() {
        for bytes in one_changed(bits_of(start)) {
            // The values come before all that is asked of a block.
            if bytes.iter().any(|&byte| byte > 1) {
                must_be_refused(&bytes, NOT_A_BIT);
            } else {
                mending(&bytes);
            }
            count += 1;
        }
    }
    report("byte values in blocks to be mended", count);
}

#[test]
fn more_than_one_byte_that_is_no_bit() {
    const COUNT: usize = 100_000;
    let mut random = Random::named("bytes that are no bits");
    for _ in 0..COUNT {
        let block = random.block();
        let mut bytes = random.not_all_bits(block);
        for _ in 0..random.below(BLOCK) {
            bytes[random.below(BLOCK)] = random.not_a_bit();
        }
        must_be_refused(&bytes, NOT_A_BIT);
    }
    report("blocks with bytes that are no bits", COUNT);
}

#[test]
fn a_block_without_such_a_change_stays() {
    const COUNT: usize = 100_000;
    let mut random = Random::named("without such a change");
    for _ in 0..COUNT {
        must_be_refused(&bits_of(random.block() ^ FAR), NO_SUCH_CHANGE);
    }
    report("blocks without such a change", COUNT);
}

/// The numbers themselves, without the independent program.
#[test]
fn what_is_refused_tells_nothing_and_changes_nothing() {
    let improper = [&[1; 49][..], &[2]].concat();
    for (bytes, refusal) in [
        (vec![1; 49], 2),
        (vec![2; 51], 2),
        (improper, 1),
        (vec![255; 50], 1),
        (bits_of(PREFIX ^ FAR).to_vec(), 15),
    ] {
        let mut lent = bytes.clone();
        let refused = Mended { refusal, place: 0, pattern: 0 };
        assert_eq!((face::mend_block(&mut lent), lent), (refused, bytes.clone()), "{bytes:?}");
    }
}
