//! The exact curve through a sheet, in fractions: six coefficients for each gap, solved for from what the curve meets at its knots and ends.
//! It shares nothing with the elimination, neither its unknowns nor its equations nor binary64, and is a second program beside it.
//! The curve with given slopes too, by fractions where it has few knots, and by going round its equations in
//! whole numbers where it has many.

use crate::curves::{self, Numbers, Sheet};
use crate::random::Random;
use crate::reference::{card_units, eliminate, fit_slopes, nearest_even, End, Kind, AT_REST, FREE};
use std::ops::{Div, Mul, Sub};

/// A fraction in its lowest terms, the divisor above 0. Whole numbers past 128 bits end the test.
#[derive(Clone, Copy, Debug, PartialEq, Eq)]
struct Fraction {
    over: i128,
    under: i128,
}

const ZERO: Fraction = Fraction { over: 0, under: 1 };

fn common_divisor(a: i128, b: i128) -> i128 {
    if b == 0 {
        a.abs()
    } else {
        common_divisor(b, a % b)
    }
}

fn product(a: i128, b: i128) -> i128 {
    a.checked_mul(b).expect("the sheet is small")
}

fn fraction(over: i128, under: i128) -> Fraction {
    let common = common_divisor(over, under) * under.signum();
    Fraction { over: over / common, under: under / common }
}

fn whole(number: i128) -> Fraction {
    fraction(number, 1)
}

impl Mul for Fraction {
    type Output = Fraction;
    fn mul(self, other: Fraction) -> Fraction {
        let (a, b) = (fraction(self.over, other.under), fraction(other.over, self.under));
        fraction(product(a.over, b.over), product(a.under, b.under))
    }
}

impl Div for Fraction {
    type Output = Fraction;
    fn div(self, other: Fraction) -> Fraction {
        self * fraction(other.under, other.over)
    }
}

impl Sub for Fraction {
    type Output = Fraction;
    fn sub(self, other: Fraction) -> Fraction {
        let times = other.under / common_divisor(self.under, other.under);
        let under = product(self.under, times);
        fraction(product(self.over, times) - product(other.over, under / other.under), under)
    }
}

/// Linear equations in fractions, each with its right side last, of which there is one solution.
fn solved(mut equations: Vec<Vec<Fraction>>) -> Vec<Fraction> {
    let n = equations.len();
    for unknown in 0..n {
        let with = (unknown..n).find(|&row| equations[row][unknown] != ZERO).expect("there is one solution");
        equations.swap(unknown, with);
        let first = equations[unknown][unknown];
        let row: Vec<Fraction> = equations[unknown].iter().map(|&number| number / first).collect();
        for other in (0..n).filter(|&other| other != unknown) {
            let times = equations[other][unknown];
            if times != ZERO {
                equations[other].iter_mut().zip(&row).for_each(|(number, &less)| *number = *number - times * less);
            }
        }
        equations[unknown] = row;
    }
    equations.iter().map(|row| row[n]).collect()
}

/// What each of a gap's six coefficients adds to a derivative of its curve, so many minutes into it.
fn derivative(order: u32, minute: i128) -> [i128; 6] {
    [0, 1, 2, 3, 4, 5].map(|power: u32| {
        let falling: i128 = (0..order).map(|step| i128::from(power) - i128::from(step)).product();
        if power < order {
            0
        } else {
            falling * minute.pow(power - order)
        }
    })
}

struct Equations {
    gaps: usize,
    rows: Vec<Vec<Fraction>>,
}

impl Equations {
    /// The sum of these gaps' derivatives, each so many times, is a number.
    fn add(&mut self, parts: &[(usize, [i128; 6], i128)], is: i128) {
        let mut row = vec![ZERO; 6 * self.gaps + 1];
        for (gap, of, times) in parts {
            for (place, &number) in of.iter().enumerate() {
                row[6 * gap + place] = whole(times * number);
            }
        }
        row[6 * self.gaps] = whole(is);
        self.rows.push(row);
    }

    /// Third and fourth derivative 0 at a free end; slope and curvature 0 at one that is at rest.
    fn end(&mut self, end: End, gap: usize, minute: i128) {
        let orders = match end.code {
            0 => [3, 4],
            1 if (end.slope, end.curvature) == (0.0, 0.0) => [1, 2],
            _ => panic!("no such end is solved here"),
        };
        for order in orders {
            self.add(&[(gap, derivative(order, minute), 1)], 0);
        }
    }
}

/// Slope and curvature of the exact curve at each knot, in card units, rounded to nearest, ties to even.
fn exact(minutes: &[u16], ordinates: &[i16], left: End, right: End) -> Vec<[i128; 2]> {
    let gaps = minutes.len() - 1;
    let width = |gap: usize| i128::from(minutes[gap + 1]) - i128::from(minutes[gap]);
    let mut equations = Equations { gaps, rows: Vec::new() };
    equations.end(left, 0, 0);
    for gap in 0..gaps {
        equations.add(&[(gap, derivative(0, 0), 1)], ordinates[gap].into());
        equations.add(&[(gap, derivative(0, width(gap)), 1)], ordinates[gap + 1].into());
        for order in 1..=if gap + 1 < gaps { 4 } else { 0 } {
            equations.add(&[(gap, derivative(order, width(gap)), 1), (gap + 1, derivative(order, 0), -1)], 0);
        }
    }
    equations.end(right, gaps - 1, width(gaps - 1));
    let coefficients = solved(equations.rows);
    let at = |gap: usize, minute: i128| {
        [1, 2].map(|order| {
            let parts = derivative(order, minute).into_iter().zip(&coefficients[6 * gap..]);
            let sum = parts.fold(ZERO, |sum, (times, &number)| sum - whole(-times) * number);
            nearest_even(product(4096, sum.over), sum.under)
        })
    };
    (0..gaps).map(|gap| at(gap, 0)).chain([at(gaps - 1, width(gaps - 1))]).collect()
}

/// The same of the elimination in binary64.
fn eliminated(minutes: &[u16], ordinates: &[i16], left: End, right: End) -> Vec<[i128; 2]> {
    let pairs = eliminate(minutes, ordinates, left, right).expect("the elimination meets no 8");
    pairs.iter().map(|pair| pair.map(card_units)).collect()
}

#[test]
fn table_3_at_rest_and_free() {
    let (minutes, ordinates) = ([0, 8, 16, 24, 32], [500, 0, 500, 0, 500]);
    let free = [[-819_200, 147_200], [230_400, 83_200], [0, -108_800], [-230_400, 83_200], [819_200, 147_200]];
    let rest = [[0, 0], [-146_579, 160_836], [174_611, -140_373], [-333_611, 89_891], [960_634, 185_744]];
    for (left, wanted) in [(FREE, free), (AT_REST, rest)] {
        assert_eq!(exact(&minutes, &ordinates, left, FREE), wanted);
        assert_eq!(eliminated(&minutes, &ordinates, left, FREE), wanted);
    }
}

/// The elimination is so near to the exact curve that the two round alike but for a number at a half, which none of these has.
#[test]
fn the_elimination_gives_the_exact_curve_in_card_units() {
    let mut random = Random::new(6);
    for turn in 0..600 {
        let n = 3 + turn % 3;
        let widest = [60, 24, 10][turn % 3];
        let mut minutes = vec![0];
        for gap in 1..n {
            minutes.push(minutes[gap - 1] + random.within(1, widest) as u16);
        }
        let ordinates: Vec<i16> = (0..n).map(|_| random.within(-2_000, 2_000) as i16).collect();
        for (left, right) in [(AT_REST, FREE), (FREE, FREE), (FREE, AT_REST)] {
            let wanted = exact(&minutes, &ordinates, left, right);
            assert_eq!(eliminated(&minutes, &ordinates, left, right), wanted, "{minutes:?} {ordinates:?} {left:?} {right:?}");
        }
    }
}

/// The curvature at each knot, in card units, of the exact curve through these knots with these slopes: a
/// gap's curve has the ordinate and the slope of both its knots, second and third derivative go on from gap
/// to gap, and the third is 0 at both ends. Everything is in card units, in which it is whole.
fn exact_to_slopes(sheet: &Sheet, slopes: &[i32]) -> Vec<Fraction> {
    let Sheet { minutes, ordinates } = sheet;
    let gaps = minutes.len() - 1;
    let width = |gap: usize| i128::from(minutes[gap + 1]) - i128::from(minutes[gap]);
    let mut equations = Equations { gaps, rows: Vec::new() };
    equations.add(&[(0, derivative(3, 0), 1)], 0);
    for gap in 0..gaps {
        for (knot, minute) in [(gap, 0), (gap + 1, width(gap))] {
            equations.add(&[(gap, derivative(0, minute), 1)], 4096 * i128::from(ordinates[knot]));
            equations.add(&[(gap, derivative(1, minute), 1)], slopes[knot].into());
        }
        for order in 2..=if gap + 1 < gaps { 3 } else { 1 } {
            equations.add(&[(gap, derivative(order, width(gap)), 1), (gap + 1, derivative(order, 0), -1)], 0);
        }
    }
    equations.add(&[(gaps - 1, derivative(3, width(gaps - 1)), 1)], 0);
    let coefficients = solved(equations.rows);
    let at = |gap: usize, minute: i128| {
        let parts = derivative(2, minute).into_iter().zip(&coefficients[6 * gap..]);
        parts.fold(ZERO, |sum, (times, &number)| sum - whole(-times) * number)
    };
    (0..gaps).map(|gap| at(gap, 0)).chain([at(gaps - 1, width(gaps - 1))]).collect()
}

/// Parts of a card unit in which the way round counts.
const PARTS: i128 = 1 << 40;

/// The same in these parts, of any number of knots: each curvature is set to what its equation gives with its
/// neighbours' curvatures, over and over. Each time round a distance from the exact ones becomes a third of
/// it at most, so that what is left is the rounding: fewer than three parts.
fn gone_round(sheet: &Sheet, slopes: &[i32]) -> Vec<i128> {
    let Sheet { minutes, ordinates } = sheet;
    let n = minutes.len();
    let (y, m) = (|i: usize| 4096 * i128::from(ordinates[i]), |i: usize| i128::from(slopes[i]));
    // Third derivative beside a knot, without the curvatures, over the gap's square: 20D·g2 − 12s·g − 8s′·g
    // in parts.
    let beside = |knot: usize, other: usize, h: i128, d: i128| PARTS * (20 * d - 12 * m(knot) * h - 8 * m(other) * h);
    let gap = |i: usize| i128::from(minutes[i + 1] - minutes[i]);
    let mut now = vec![0; n];
    for _ in 0..60 {
        let before = now.clone();
        for i in 0..n {
            // Right third is left third: both over the gaps' cubes, so that the right one is multiplied by
            // the left gap's.
            let (right, next) = if i + 1 < n { (gap(i), before[i + 1]) } else { (0, 0) };
            let (left, last) = if i > 0 { (gap(i - 1), before[i - 1]) } else { (0, 0) };
            let (by_right, by_left) = (left.max(1).pow(3), right.max(1).pow(3));
            let on_right = if right > 0 { beside(i, i + 1, right, y(i + 1) - y(i)) + next * right.pow(2) } else { 0 };
            let on_left = if left > 0 { beside(i, i - 1, left, y(i) - y(i - 1)) - last * left.pow(2) } else { 0 };
            let own = 3 * (right.pow(2) * by_right + left.pow(2) * by_left);
            now[i] = nearest_even(on_right * by_right - on_left * by_left, own);
        }
    }
    now
}

/// How far a card's number is from a fraction, in thousandths of a unit, rounded down.
fn thousandths_off(number: i32, exact: Fraction) -> i128 {
    product(1000, product(number.into(), exact.under) - exact.over).abs() / exact.under
}

/// A sheet of few knots, or of any number, with slopes: those of a smooth curve through it, near these, or
/// any; on which the fit to them is accepted.
fn fitted_card(random: &mut Random, n: usize, widest: i64) -> Numbers {
    loop {
        let mut minutes = vec![0];
        for gap in 1..n {
            minutes.push(minutes[gap - 1] + random.within(1, widest) as u16);
        }
        let ordinates: Vec<i16> = (0..n).map(|_| random.within(-2_000, 2_000) as i16).collect();
        let sheet = Sheet { minutes, ordinates };
        let slopes = curves::slopes(random, &sheet);
        if let Some(numbers) = curves::sloped(sheet, slopes) {
            return numbers;
        }
    }
}

/// The card with some of its curvatures, or all, up to three units off.
fn moved(random: &mut Random, numbers: &Numbers) -> Numbers {
    let mut moved = numbers.clone();
    let n = moved.curvatures.len();
    let alike = random.within(-3, 3) as i32;
    match random.below(4) {
        0 => moved.curvatures.iter_mut().for_each(|c| *c += alike),
        1 => moved.curvatures.iter_mut().for_each(|c| *c += random.within(-2, 2) as i32),
        2 => moved.curvatures.iter_mut().enumerate().for_each(|(i, c)| *c += if i % 2 == 0 { alike } else { -alike }),
        _ => moved.curvatures[random.below(n)] += alike,
    }
    moved
}

#[test]
fn table_3_has_the_curvatures_of_its_slopes() {
    let table_3 = curves::table_3_sloped();
    let Sheet { minutes, ordinates } = &table_3.sheet;
    assert_eq!(table_3.slopes, [-819_200, 230_400, 0, -230_400, 819_200]);
    let mut curvatures = [0; 5];
    assert_eq!(fit_slopes(minutes, ordinates, &table_3.slopes, &mut curvatures), Ok(()));
    assert_eq!(curvatures, [147_200, 83_200, -108_800, 83_200, 147_200]);
    let exact = exact_to_slopes(&table_3.sheet, &table_3.slopes);
    assert_eq!(exact, curvatures.map(|c| whole(c.into())));
}

/// Document 000's Table 4, three minutes later and its slopes in card units: half the second derivative, as
/// it is printed at the left end of each gap and at the end of the last, times 8192 and rounded; and the
/// fractions, of which the printed numbers have six digits or so.
#[test]
fn table_4_has_the_curvatures_that_are_printed() {
    let sheet = Sheet { minutes: vec![0, 2, 3, 6, 7], ordinates: vec![7, 11, 26, 56, 29] };
    let slopes = [2, 15, 10, -27, -30].map(|slope| 4096 * slope);
    let millionths = [-6_108_372, 7_674_872, -1_908_856, -5_264_445, -7_754_762];
    let printed = millionths.map(|number| nearest_even(8192 * number, 1_000_000) as i32);
    assert_eq!(printed, [-50_040, 62_873, -15_637, -43_126, -63_527]);
    let mut curvatures = [0; 5];
    assert_eq!(fit_slopes(&sheet.minutes, &sheet.ordinates, &slopes, &mut curvatures), Ok(()));
    assert_eq!(curvatures, printed);
    let fractions = [(-60_197_888, 1203), (25_211_904, 401), (-18_811_904, 1203), (-51_880_960, 1203), (-229_270_528, 3609)]
        .map(|(over, under)| fraction(over, under));
    assert_eq!(exact_to_slopes(&sheet, &slopes), fractions);
    assert_eq!(fractions.map(|exact| nearest_even(exact.over, exact.under) as i32), printed);
}

/// The fit's curvatures are the exact ones rounded, and no card that is accepted has one that is more than
/// two units off.
#[test]
fn no_accepted_card_of_given_slopes_is_more_than_two_units_from_the_exact_curve() {
    let mut random = Random::new(8);
    let (mut accepted, mut refused, mut furthest) = (0, 0, 0);
    for turn in 0..3_000 {
        let numbers = fitted_card(&mut random, 3 + turn % 3, [60, 24, 10][turn % 3]);
        let exact = exact_to_slopes(&numbers.sheet, &numbers.slopes);
        for (&number, &exact) in numbers.curvatures.iter().zip(&exact) {
            assert!(thousandths_off(number, exact) <= 501, "{numbers:?}");
        }
        for _ in 0..40 {
            let moved = moved(&mut random, &numbers);
            if !moved.accepted() {
                refused += 1;
                continue;
            }
            accepted += 1;
            for (&number, &exact) in moved.curvatures.iter().zip(&exact) {
                assert!(product(number.into(), exact.under).abs_diff(exact.over) <= 2 * exact.under as u128, "{moved:?}");
                furthest = furthest.max(thousandths_off(number, exact));
            }
        }
    }
    println!("{accepted} accepted, {refused} refused, at most {furthest} thousandths off");
    assert!(accepted > 10_000 && refused > 10_000 && furthest > 1_900);
}

/// The same of up to 64 knots on all gaps, by going round; what is left of that is allowed for.
#[test]
fn nor_is_one_of_many_knots() {
    let mut random = Random::new(9);
    let (mut accepted, mut refused, mut furthest) = (0, 0, 0);
    for turn in 0..3_000 {
        let numbers = curves::fitted_to_slopes(&mut random, 3 + turn % 62);
        let exact = gone_round(&numbers.sheet, &numbers.slopes);
        let off = |c: i32, exact: i128| (PARTS * i128::from(c) - exact).abs();
        for (&number, &exact) in numbers.curvatures.iter().zip(&exact) {
            assert!(1000 * off(number, exact) <= 501 * PARTS, "{numbers:?}");
        }
        for _ in 0..40 {
            let moved = moved(&mut random, &numbers);
            if !moved.accepted() {
                refused += 1;
                continue;
            }
            accepted += 1;
            for (&number, &exact) in moved.curvatures.iter().zip(&exact) {
                assert!(off(number, exact) <= 2 * PARTS + 3, "{moved:?}");
                furthest = furthest.max(1000 * off(number, exact) / PARTS);
            }
        }
    }
    println!("{accepted} accepted, {refused} refused, at most {furthest} thousandths off");
    assert!(accepted > 10_000 && refused > 10_000 && furthest > 1_900);
}

/// Going round and the fractions agree.
#[test]
fn going_round_leads_to_the_fractions() {
    let mut random = Random::new(10);
    for turn in 0..1_000 {
        let numbers = fitted_card(&mut random, 3 + turn % 3, [60, 24, 10][turn % 3]);
        let round = gone_round(&numbers.sheet, &numbers.slopes);
        for (round, exact) in round.into_iter().zip(exact_to_slopes(&numbers.sheet, &numbers.slopes)) {
            // Over 2^30, so that the products stay within 128 bits.
            let off = product(round >> 10, exact.under) - product(PARTS >> 10, exact.over);
            assert!(off.abs() <= 2 * exact.under, "{numbers:?}");
        }
    }
}

/// The two units are met: on a level line the exact curvatures are 0, and 2 at every knot is accepted, 3 at
/// one is not.
#[test]
fn a_card_may_be_two_units_off() {
    let level = |curvatures: [i32; 4]| {
        let sheet = Sheet { minutes: vec![0, 1, 30, 90], ordinates: vec![0; 4] };
        let numbers = Numbers { kind: Kind::Sloped, sheet, slopes: vec![0; 4], curvatures: curvatures.to_vec(), left: 0, right: 0 };
        numbers.accepted()
    };
    assert!(exact_to_slopes(&Sheet { minutes: vec![0, 1, 30, 90], ordinates: vec![0; 4] }, &[0; 4]).iter().all(|&c| c == ZERO));
    assert_eq!([[2; 4], [-2; 4], [1, 1, 1, 1]].map(level), [true; 3]);
    assert_eq!([[3, 2, 2, 2], [2, 2, 2, 3], [3; 4], [2, -2, 2, -2], [-3; 4]].map(level), [false; 5]);
}
