//! Request No. 9 against the library: what is refused when strings are divided and
//! remainders joined, and in which order.

use harness::compare::{dividing, joining};
use harness::face::{self, Remainder};
use harness::fields::{one_changed, one_replaced};
use harness::independent::bits_of;
use harness::independent::joining::STRING;
use harness::random::{report, Random};
use harness::refusals::{NOT_A_BIT, NOT_A_REMAINDER, STRING_TOO_LONG};

/// How often each refusal was given, and that none of these was left out.
fn must_have_given(what: &str, refusals: &[u8], expected: &[u8]) {
    for refusal in expected {
        let count = refusals.iter().filter(|&given| given == refusal).count();
        println!("{what} answered with {refusal}: {count}");
        assert!(count > 0);
    }
}

#[test]
fn a_join_is_refused_for_its_length_first() {
    let remainders = [0, 1, 8_190, 8_191, 8_192, 8_193, 16_384, 32_768, 65_535];
    let most = u32::MAX;
    let mut refusals = Vec::new();
    for length in [0, 1, 65_535, 65_536, 65_537, 65_538, 131_072, 1 << 31, most - 65_535, most] {
        for first in remainders {
            for second in remainders {
                let refusal = joining(first, second, length).err().unwrap_or(0);
                let expected = match (length, first, second) {
                    (65_537.., _, _) => STRING_TOO_LONG,
                    (_, 8_192.., _) | (_, _, 8_192..) => NOT_A_REMAINDER,
                    _ => 0,
                };
                assert_eq!(refusal, expected, "{first} and {second} of {length} bits");
                refusals.push(refusal);
            }
        }
    }
    must_have_given("joins", &refusals, &[0, STRING_TOO_LONG, NOT_A_REMAINDER]);
}

#[test]
fn every_first_and_every_second() {
    let mut count = 0;
    for length in [0, 1, 13, 50, 1_000, 65_537] {
        for fixed in [0, 5, 8_191, 8_192, 65_535] {
            for any in 0..=u16::MAX {
                let taken = length <= 65_536 && any <= 8_191 && fixed <= 8_191;
                assert_eq!(joining(any, fixed, length).is_ok(), taken);
                assert_eq!(joining(fixed, any, length).is_ok(), taken);
                count += 2;
            }
        }
    }
    // On paper the longest takes its time.
    for first in 0..=u16::MAX {
        assert_eq!(joining(first, 5, 65_536).is_ok(), first <= 8_191);
        count += 1;
    }
    report("every first and every second", count);
}

#[test]
fn a_string_is_refused_for_its_length_first() {
    let mut random = Random::named("strings to be refused");
    let mut refusals = Vec::new();
    for len in [0, 1, 2, 3, 50, 65_535, 65_536, 65_537, 65_538, 131_072, 131_122, 1_000_000] {
        let bits = random.bits(len);
        for bytes in [2, 255].into_iter().flat_map(|byte| one_replaced(&bits, byte)) {
            let refusal = dividing(&bytes).err().unwrap_or(0);
            let expected = match len {
                65_537.. => STRING_TOO_LONG,
                _ if bytes.iter().any(|&byte| byte > 1) => NOT_A_BIT,
                _ => 0,
            };
            assert_eq!(refusal, expected, "{len} bytes");
            refusals.push(refusal);
        }
        // None of them is a bit.
        let expected = if len > 65_536 { STRING_TOO_LONG } else { NOT_A_BIT };
        assert_eq!(dividing(&vec![7; len]).err(), (len > 0).then_some(expected));
    }
    must_have_given("strings", &refusals, &[0, NOT_A_BIT, STRING_TOO_LONG]);
}

#[test]
fn every_byte_value() {
    let mut random = Random::named("every byte value in strings");
    for bytes in one_changed(bits_of(random.block())) {
        let refused = bytes.iter().any(|&byte| byte > 1);
        assert_eq!(dividing(&bytes).err(), refused.then_some(NOT_A_BIT), "{bytes:?}");
    }
    let bits = random.bits(STRING);
    for byte in 0..=255 {
        for bytes in &one_replaced(&bits, byte)[1..] {
            assert_eq!(dividing(bytes).err(), (byte > 1).then_some(NOT_A_BIT), "{byte}");
        }
    }
}

#[test]
fn what_is_refused_has_no_remainder() {
    let refused = |refusal| Remainder { refusal, remainder: 0 };
    assert_eq!(face::remainder_of(&[1; STRING + 1]), refused(17));
    assert_eq!(face::remainder_of(&[1, 1, 2, 1]), refused(1));
    assert_eq!(face::join(1, 1, 65_537), refused(17));
    assert_eq!(face::join(8_192, 1, 1), refused(18));
    assert_eq!(face::join(1, 8_192, 1), refused(18));
}
