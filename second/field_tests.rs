//! Tests of products in the field of the doubling, and of their rows.

use crate::bits::bits_of;
use crate::block::{double, full, times_3, times_7, xor, Block, BLOCK_BITS, BLOCK_BYTES, ZERO};
use crate::field::{product, times_power_of_2};
use crate::generator::Generator;
use crate::products::{command, power};
use crate::tests::block;

/// From the generator, and some that matter.
fn blocks() -> Vec<Block> {
    let draw = &mut Generator::new(1);
    let mut list: Vec<Block> = (0..12).map(|_| full(&draw.bytes(BLOCK_BYTES))).collect();
    list.extend([ZERO, power(0), power(1), power(127), [0xff; BLOCK_BYTES]]);
    list
}

#[test]
fn a_product_with_a_power_of_2_is_that_of_the_division_alone() {
    for x in blocks() {
        for i in 0..3 * BLOCK_BITS {
            let power_of_2 = times_power_of_2(&power(0), i);
            assert_eq!(product(&x, &power_of_2), times_power_of_2(&x, i));
        }
    }
}

#[test]
fn a_product_with_x_is_doubling() {
    let (x, x_and_1) = (power(1), xor(&power(1), &power(0)));
    for y in blocks() {
        assert_eq!(product(&x, &y), double(&y));
        assert_eq!(product(&x_and_1, &y), times_3(&y));
        assert_eq!(product(&xor(&power(2), &x_and_1), &y), times_7(&y));
    }
}

#[test]
fn products_follow_the_laws_of_a_field() {
    for x in blocks() {
        assert_eq!(product(&x, &power(0)), x);
        assert_eq!(product(&x, &ZERO), ZERO);
        for y in blocks() {
            let xy = product(&x, &y);
            assert_eq!(product(&y, &x), xy);
            assert_eq!(xy == ZERO, x == ZERO || y == ZERO);
            for z in blocks() {
                assert_eq!(product(&xy, &z), product(&x, &product(&y, &z)));
                let sum = xor(&y, &z);
                assert_eq!(product(&x, &sum), xor(&xy, &product(&x, &z)));
            }
        }
    }
}

/// X^(2^128) is X, so X^(2^128 - 2) is the inverse of X.
#[test]
fn every_block_but_0_has_an_inverse() {
    for x in blocks() {
        let (mut square, mut inverse) = (x, power(0));
        for _ in 1..BLOCK_BITS {
            square = product(&square, &square);
            inverse = product(&inverse, &square);
        }
        assert_eq!(product(&square, &square), x);
        let expected = if x == ZERO { ZERO } else { power(0) };
        assert_eq!(product(&x, &inverse), expected);
    }
}

#[test]
fn products_of_powers_of_x_add_the_exponents() {
    for i in 0..BLOCK_BITS {
        assert_eq!(times_power_of_2(&power(0), i), power(i));
        for j in 0..BLOCK_BITS {
            let expected = times_power_of_2(&power(0), i + j);
            assert_eq!(product(&power(i), &power(j)), expected);
        }
    }
}

/// x^254 is x^126 (x^7 + x^2 + x + 1), whose x^133 + x^128 is (x^5 + 1) (x^7 + x^2 + x + 1).
/// All ones squared are A (x^128 + 1), where A has the even powers: A (x^7 + x^2 + x).
#[test]
fn the_rows_by_hand() {
    let expected = [
        "00000000000000000000000000000001 030a11181f262d343b424950575e656c \
         030a11181f262d343b424950575e656c",
        "8198afc6ddf40b223950677e95acc3da 00000000000000000000000000000001 \
         8198afc6ddf40b223950677e95acc3da",
        "00000000000000000000000000000002 8198afc6ddf40b223950677e95acc3da \
         03315f8dbbe8164472a0cefd2b598733",
        "00000000000000000000000000000002 030a11181f262d343b424950575e656c \
         061422303e4c5a68768492a0aebccad8",
        "80000000000000000000000000000000 00000000000000000000000000000002 \
         00000000000000000000000000000087",
        "80000000000000000000000000000000 80000000000000000000000000000000 \
         c0000000000000000000000000001067",
        "ffffffffffffffffffffffffffffffff ffffffffffffffffffffffffffffffff \
         5555555555555555555555555555402f",
    ];
    let text = command();
    for row in expected {
        assert!(text.lines().any(|line| line == row), "{row}");
    }
}

/// The dense ones too: the sum of 2^i A over the bits of B, by doubling.
#[test]
fn the_rows_by_doubling() {
    for line in command().lines() {
        let row: Vec<Block> = line.split(' ').map(block).collect();
        let [a, b, expected] = row[..] else {
            panic!("{line}");
        };
        let (mut doubled, mut sum) = (a, ZERO);
        for bit in bits_of(&b).into_iter().rev() {
            if bit {
                sum = xor(&sum, &doubled);
            }
            doubled = double(&doubled);
        }
        assert_eq!(sum, expected);
    }
}
