//! Fits to given slopes and cards of that kind to compare on, in groups; the same in every run.

use crate::compare::{self, Tally};
use crate::curves::{self, Numbers, Sheet};
use crate::groups::{about_the_weight_sheet, at_the_last_minute, card, changed_bytes, changed_records, cut_and_extended};
use crate::groups::{refit_into_all, whole_card, whole_table};
use crate::random::Random;
use crate::reference::{self, card_size, Kind, CARD_NUMBER_LIMIT, MOST_KNOTS};
use std::collections::BTreeSet;

/// The fit, and the writer with what it gave, into buffers that are too short, just right and too long.
fn fit_and_write(tally: &mut Tally, random: &mut Random, sheet: &Sheet, slopes: &[i32]) {
    let Sheet { minutes, ordinates } = sheet;
    let n = minutes.len();
    compare::fit_slopes(tally, minutes, ordinates, slopes, n);
    let mut curvatures = vec![random.within(-40, 40) as i32; n];
    let _ = reference::fit_slopes(minutes, ordinates, slopes, &mut curvatures);
    let length = card_size(n) + random.pick(&[0, 0, 1, 50]) - random.pick(&[0, 0, 1, 14]);
    compare::write_slopes(tally, minutes, ordinates, slopes, &curvatures, length);
}

/// Fits to slopes and writers of 0 to 66 knots, sound and spoilt; and of lists that differ in length.
pub fn fits(tally: &mut Tally, random: &mut Random) {
    for n in 0..=MOST_KNOTS + 2 {
        for turn in 0..400 {
            let mut sheet = curves::sheet(random, n);
            let mut slopes = curves::slopes(random, &sheet);
            for _ in 0..(turn % 4) {
                curves::spoil(random, &mut sheet);
            }
            if turn % 5 == 0 {
                curves::spoil_a_slope(random, &mut slopes);
            }
            fit_and_write(tally, random, &sheet, &slopes);
        }
    }
    let sizes = [0, 2, 3, 4, 64, 65];
    let sheet = curves::sheet(random, 65);
    for choice in 0..sizes.len().pow(4) {
        let [a, b, c, d] = [1, 6, 36, 216].map(|power| sizes[choice / power % 6]);
        let (minutes, ordinates) = (&sheet.minutes[..a], &sheet.ordinates[..b]);
        for slope in [0, CARD_NUMBER_LIMIT + 1] {
            compare::fit_slopes(tally, minutes, ordinates, &vec![slope; c], d);
            compare::write_slopes(tally, minutes, ordinates, &vec![slope; c], &vec![0; d], random.pick(&[0, 62, 78, 1038]));
        }
    }
}

/// Fits to slopes of which one curvature stands at a half before it is rounded; and the same with one slope a
/// little more or less.
pub fn at_a_half(tally: &mut Tally, random: &mut Random) {
    let mut met = 0;
    for _ in 0..1_500_000 {
        let Some((sheet, mut slopes)) = curves::slopes_at_a_half(random) else { continue };
        met += 1;
        fit_and_write(tally, random, &sheet, &slopes);
        slopes[random.below(sheet.minutes.len())] += random.within(-3, 3) as i32;
        fit_and_write(tally, random, &sheet, &slopes);
    }
    assert!(met > 1_000, "no sheets at a half: {met}");
}

/// The card's numbers of refusal, of cards of given slopes: each has to be met.
#[derive(Default)]
struct Met(BTreeSet<u32>);

impl Met {
    /// A card by all that reads cards, its own number noted where its head is that of given slopes.
    fn card(&mut self, tally: &mut Tally, random: &mut Random, bytes: &[u8]) {
        if bytes.get(2..4) == Some(&Kind::Sloped.head().to_le_bytes()) {
            self.0.insert(reference::check(bytes).map_or_else(|refusal| refusal.number, |_| 0));
        }
        card(tally, random, bytes);
    }

    fn all(&self) {
        for number in [0, 14, 1, 2, 15, 4, 5, 6, 9, 10] {
            assert!(self.0.contains(&number), "no card of given slopes met {number}");
        }
    }
}

/// Heads: those of the two kinds, the numbers about them, those of the other records, and such as are a
/// head's with their bytes changed over.
const HEADS: [u16; 15] = [0, 1, 2, 3, 4, 5, 6, 7, 8, 255, 256, 257, 262, 1536, 65_535];

/// One card of either kind under every head, with every pair of codes.
fn under_every_head(tally: &mut Tally, random: &mut Random, met: &mut Met, numbers: &Numbers) {
    for left in [0, 1, 2, 3, 256, 65_535] {
        for right in [0, 1, 2, 3, 256, 65_535] {
            let coded = Numbers { left, right, ..numbers.clone() };
            for head in HEADS {
                met.card(tally, random, &coded.headed(head));
            }
        }
    }
}

/// Bytes of cards of given slopes: cut, changed, under other heads, with codes, with curvatures a few units
/// off; and cards of document 01 under the other head.
pub fn cards(tally: &mut Tally, random: &mut Random) {
    let met = &mut Met::default();
    let mut few = vec![curves::table_3_sloped(), curves::fitted_to_slopes(random, 3), curves::fitted_to_slopes(random, 7)];
    for numbers in &few {
        changed_bytes(tally, random, &numbers.bytes(), true);
    }
    few.extend([3, 4, 9, 64].map(|n| curves::fitted_to_slopes(random, n)));
    for numbers in &few {
        let bytes = numbers.bytes();
        changed_bytes(tally, random, &bytes, false);
        cut_and_extended(tally, random, &bytes);
        changed_records(tally, random, &bytes);
        under_every_head(tally, random, met, numbers);
    }
    for codes in 0..9 {
        let numbers = curves::fitted(random, 3 + usize::from(codes), codes / 3, codes % 3);
        under_every_head(tally, random, met, &numbers);
    }
    for turn in 0..20_000 {
        let n = if turn % 8 == 0 { random.within(3, 64) } else { random.within(3, 6) } as usize;
        let mut numbers = match random.below(3) {
            0 => Numbers { kind: Kind::Sloped, ..curves::extreme(random, n) },
            1 => curves::fitted_to_slopes(random, n),
            _ => Numbers { kind: Kind::Sloped, left: 0, right: 0, ..curves::fitted(random, n, 0, 0) },
        };
        for _ in 0..random.below(3) {
            let curvature = &mut numbers.curvatures[random.below(n)];
            *curvature = curvature.saturating_add(random.within(-3, 3) as i32);
        }
        match random.below(8) {
            0 => curves::spoil(random, &mut numbers.sheet),
            1 => curves::spoil_a_slope(random, &mut numbers.slopes),
            2 => curves::spoil_a_slope(random, &mut numbers.curvatures),
            _ => {}
        }
        let Sheet { minutes, ordinates } = &numbers.sheet;
        let length = card_size(n) + random.below(3) - 1;
        compare::write_slopes(tally, minutes, ordinates, &numbers.slopes, &numbers.curvatures, length);
        let bytes = numbers.bytes();
        let cut = if random.once_in(12) { random.below(bytes.len()) } else { bytes.len() };
        met.card(tally, random, &bytes[..cut]);
        met.card(tally, random, &numbers.headed(Kind::Quintic.head()));
    }
    for n in [0, 1, 2, MOST_KNOTS + 1, MOST_KNOTS + 2] {
        let (sheet, zeros) = (curves::sheet(random, n), vec![0; n]);
        let numbers = Numbers { kind: Kind::Sloped, sheet, slopes: zeros.clone(), curvatures: zeros, left: 0, right: 0 };
        met.card(tally, random, &numbers.bytes());
    }
    met.all();
}

/// Readings at every minute, tables and swings off cards of given slopes, on gaps of the weight sheet too.
pub fn readings(tally: &mut Tally, random: &mut Random) {
    for n in 3..=MOST_KNOTS {
        let numbers = curves::fitted_to_slopes(random, n);
        whole_card(tally, random, &numbers);
        compare::readings(tally, &numbers.bytes());
        compare::swing(tally, &at_the_last_minute(&numbers).bytes());
        if n < 9 || n == MOST_KNOTS || random.once_in(6) {
            whole_table(tally, random, &numbers);
            whole_table(tally, random, &at_the_last_minute(&numbers));
        }
    }
    for minutes in about_the_weight_sheet(random) {
        compare::readings(tally, &curves::fitted_to_slopes_at(random, &minutes).bytes());
    }
}

/// Cards of given slopes with one number stepped until they are refused: the last card accepted and the first
/// refused, each under both heads; and each curvature one, two and three units off.
pub fn near_the_allowance(tally: &mut Tally, random: &mut Random) {
    for turn in 0..120 {
        let n = if turn % 10 == 0 { random.within(3, 64) } else { random.within(3, 9) } as usize;
        let numbers = curves::fitted_to_slopes(random, n);
        for place in 0..n {
            for (slope, step) in [(true, 1), (true, -1), (false, 1), (false, -1)] {
                let (within, past) = curves::about_the_allowance(&numbers, place, slope, step);
                for sides in [&within, &past] {
                    whole_card(tally, random, sides);
                    compare::check(tally, &sides.headed(Kind::Quintic.head()));
                }
            }
            for off in [-3, -2, -1, 1, 2, 3] {
                let mut moved = numbers.clone();
                moved.curvatures[place] += off;
                compare::check(tally, &moved.bytes());
                compare::refit(tally, &moved.bytes(), [n; 2]);
                moved.curvatures.iter_mut().for_each(|c| *c += off);
                compare::check(tally, &moved.bytes());
            }
        }
    }
}

/// Fits to slopes whose largest curvature is at the limit or just past it; cards with that curvature at the
/// limit, of which some are accepted and their fresh fit is refused; and fresh fits of fitted and of changed
/// cards.
pub fn fresh_fits_and_limits(tally: &mut Tally, random: &mut Random) {
    let mut met = 0;
    for _ in 0..4_000 {
        let Some((sheet, sides)) = curves::slopes_about_the_limit(random) else { continue };
        for slopes in sides {
            fit_and_write(tally, random, &sheet, &slopes);
            let Ok(fitted) = reference::eliminate_slopes(&sheet.minutes, &sheet.ordinates, &slopes) else { continue };
            let limit = i128::from(CARD_NUMBER_LIMIT);
            let curvatures = fitted.iter().map(|&u| reference::card_units(u).clamp(-limit, limit) as i32).collect();
            let (n, sheet) = (slopes.len(), sheet.clone());
            let bytes = Numbers { kind: Kind::Sloped, sheet, slopes, curvatures, left: 0, right: 0 }.bytes();
            let refused = reference::refit(&bytes, &mut vec![0; n], &mut vec![0; n]).is_err_and(|refusal| refusal.number == 9);
            met += usize::from(refused && reference::check(&bytes).is_ok());
            refit_into_all(tally, &bytes, n);
        }
    }
    assert!(met > 0, "no accepted card of given slopes whose fresh fit is refused");
    for n in 3..=MOST_KNOTS {
        let numbers = curves::fitted_to_slopes(random, n);
        let anew = reference::refit(&numbers.bytes(), &mut vec![0; n], &mut vec![0; n]);
        assert_eq!(anew, Ok(reference::Refitted { knots: n as u32, changed: 0 }), "{numbers:?}");
        refit_into_all(tally, &numbers.bytes(), n);
        for _ in 0..40 {
            let mut changed = numbers.clone();
            for _ in 0..random.within(1, 4) {
                let (list, most) = if random.once_in(3) { (&mut changed.slopes, 20) } else { (&mut changed.curvatures, 1) };
                list[random.below(n)] += random.within(-most, most) as i32;
            }
            compare::refit(tally, &changed.bytes(), [n + random.below(2); 2]);
        }
    }
}
