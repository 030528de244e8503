//! The numbers of include/kaihveto.h beside the reference's own.

use crate::reference::{
    numerator, Kind, Knot, CARD_NUMBER_LIMIT, FAULT, FEWEST_PARTS, FEWEST_VALUES, HIGHEST_GOOD_BYTE, LEAST_KNOTS, LONGEST_BOOK,
    LONGEST_LOG, MOST_KNOTS, MOST_PARTS, MOST_VALUES, ORDINATE_LIMIT, WIDEST_GAP,
};

const HEADER: &str = include_str!("../../../include/kaihveto.h");

fn defined(name: &str) -> i128 {
    let line = HEADER.lines().find_map(|line| line.strip_prefix(&format!("#define KAIHVETO_{name} "))).expect(name);
    line.trim_matches(['(', ')']).parse().expect(name)
}

#[test]
fn the_limits_are_the_references() {
    let limits = [
        ("FEWEST_KNOTS", LEAST_KNOTS as i128),
        ("MOST_KNOTS", MOST_KNOTS as i128),
        ("WIDEST_GAP", i128::from(WIDEST_GAP)),
        ("ORDINATE_LIMIT", i128::from(ORDINATE_LIMIT)),
        ("CARD_NUMBER_LIMIT", i128::from(CARD_NUMBER_LIMIT)),
        ("LOG_MOST_BYTES", LONGEST_LOG as i128),
        ("LOG_LARGEST_GOOD", i128::from(HIGHEST_GOOD_BYTE)),
        ("LOG_FAULT", i128::from(FAULT)),
        ("BOOK_MOST_BYTES", LONGEST_BOOK as i128),
        ("PREHEAT_FEWEST_VALUES", FEWEST_VALUES as i128),
        ("PREHEAT_MOST_VALUES", MOST_VALUES as i128),
        ("PREHEAT_FEWEST_PARTS", i128::from(FEWEST_PARTS)),
        ("PREHEAT_MOST_PARTS", i128::from(MOST_PARTS)),
        ("FITTED", i128::from(Kind::Quintic.head())),
        ("SLOPES_GIVEN", i128::from(Kind::Sloped.head())),
    ];
    for (name, limit) in limits {
        assert_eq!(defined(name), limit, "{name}");
    }
}

/// The largest size of a value by the limits of a card's numbers, at every minute of every gap: each number
/// of both knots at its limit, with the sign that adds. It is a whole number of hundredths, so that rounding
/// adds nothing.
#[test]
fn no_value_lies_beyond_its_limit_and_one_may_lie_at_it() {
    let limits = [i128::from(ORDINATE_LIMIT), i128::from(CARD_NUMBER_LIMIT), i128::from(CARD_NUMBER_LIMIT)];
    let knot = |x, one: Option<usize>| {
        let number = |place| if one == Some(place) { limits[place] } else { 0 };
        Knot { x, y: number(0), m: number(1), c: number(2) }
    };
    let limit = defined("VALUE_LIMIT");
    let mut met = false;
    for h in 1..=i128::from(WIDEST_GAP) {
        for tau in 0..=h {
            let side =
                |of| numerator(knot(0, Some(of)), knot(h, None)).at(tau).abs() + numerator(knot(0, None), knot(h, Some(of))).at(tau).abs();
            let (most, denominator) = ((0..3).map(side).sum::<i128>(), 8192 * h.pow(5));
            assert!(most <= limit * denominator, "minute {tau} of {h}");
            met |= most == limit * denominator;
        }
    }
    assert!(met);
}
