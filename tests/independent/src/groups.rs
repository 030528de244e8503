//! The inputs to compare on, in groups; the same in every run.

use crate::books;
use crate::compare::{self, Tally};
use crate::curves::{self, Numbers, Sheet, Turn};
use crate::preheater;
use crate::random::Random;
use crate::reference::{
    self, card_size, End, Kind, Swing, CARD_NUMBER_LIMIT, FREE, HOLE, LONGEST_LOG, MOST_KNOTS, ORDINATE_LIMIT, WIDEST_GAP,
};
use crate::removals;
use crate::slopes;
use std::collections::BTreeMap;
use std::time::Instant;

const CODES: [u16; 3] = [0, 1, 2];

/// The gaps of the weight sheet, and those about them.
const ABOUT_THE_WEIGHT_SHEET: [u16; 8] = [14, 15, 16, 29, 30, 31, 59, 60];

/// The nine mixes of ends.
fn mixes() -> Vec<[u16; 2]> {
    CODES.iter().flat_map(|&left| CODES.map(|right| [left, right])).collect()
}

/// Logs that stand at the last minute of all, before it or behind it: good ones, and such with faults, faults alone or a byte that means nothing.
fn logs_at_the_last_minute(tally: &mut Tally, random: &mut Random) {
    for length in 0..=LONGEST_LOG + 1 {
        for back in 0..=LONGEST_LOG + 2 {
            let first = 65_535 - back as u16;
            let good: Vec<u8> = (0..length).map(|_| random.below(201) as u8).collect();
            let faulty = good.iter().map(|&byte| if random.once_in(2) { 255 } else { byte }).collect::<Vec<u8>>();
            compare::mean(tally, first, &good);
            compare::mean(tally, first, &faulty);
            compare::mean(tally, first, &vec![255; length]);
            if length > 0 {
                let mut spoilt = faulty;
                spoilt[random.below(length)] = random.within(201, 254) as u8;
                compare::mean(tally, first, &spoilt);
            }
        }
    }
}

/// Logs of every length with about half their bytes good, two fewer to three more than half rounded down: the good ones in front, at the back or anywhere, the
/// middle at the last minute of all, beside it or anywhere; and the same with a byte that means nothing.
fn logs_about_half(tally: &mut Tally, random: &mut Random) {
    for length in 0..=LONGEST_LOG + 1 {
        let half = length / 2;
        for good in half.saturating_sub(2)..=(half + 3).min(length) {
            let mut log: Vec<u8> = (0..length).map(|place| if place < good { random.below(201) as u8 } else { 255 }).collect();
            let last = 65_535 - half as u16;
            for first in [0, last - 1, last, last.saturating_add(1), random.next() as u16] {
                compare::mean(tally, first, &log);
                log.reverse();
                compare::mean(tally, first, &log);
                random.shuffle(&mut log);
                compare::mean(tally, first, &log);
                if length > 0 {
                    let mut spoilt = log.clone();
                    spoilt[random.below(length)] = random.within(201, 254) as u8;
                    compare::mean(tally, first, &spoilt);
                }
            }
        }
    }
}

/// Logs of every length from 0 to one too many, each byte value alone, among good bytes and among faults.
fn logs(tally: &mut Tally, random: &mut Random) {
    for length in 0..=LONGEST_LOG + 1 {
        for byte in 0..=255 {
            compare::mean(tally, random.next() as u16, &vec![byte; length]);
            for filling in [None, Some(255), Some(0), Some(200)] {
                let mut log: Vec<u8> = (0..length).map(|_| filling.unwrap_or_else(|| random.below(201) as u8)).collect();
                if length > 0 {
                    log[random.below(length)] = byte;
                }
                compare::mean(tally, random.next() as u16, &log);
            }
        }
        for _ in 0..400 {
            let byte = |random: &mut Random| if random.once_in(3) { 255 } else { random.within(0, 200) as u8 };
            let mut log: Vec<u8> = (0..length).map(|_| byte(random)).collect();
            if random.once_in(4) {
                log.iter_mut().for_each(|byte| *byte = if *byte == 255 { 255 } else { *byte % 2 });
            }
            if random.once_in(8) && length > 0 {
                log[random.below(length)] = random.within(200, 255) as u8;
            }
            compare::mean(tally, random.pick(&[0, 1, 65_504, 65_505, 65_506, 65_535]), &log);
        }
    }
    logs_at_the_last_minute(tally, random);
    logs_about_half(tally, random);
}

/// Fits of 0 to 66 knots, all mixes of ends, sound sheets and spoilt ones.
fn fits(tally: &mut Tally, random: &mut Random) {
    let specials = curves::given_numbers();
    for n in 0..=MOST_KNOTS + 2 {
        for [left, right] in mixes() {
            for turn in 0..160 {
                let mut sheet = curves::sheet(random, n);
                for _ in 0..(turn % 4) {
                    curves::spoil(random, &mut sheet);
                }
                let ends = [curves::end(random, left, &specials), curves::end(random, right, &specials)];
                compare::fit_ends(tally, &sheet.minutes, &sheet.ordinates, [n, n], ends[0], ends[1]);
                if turn < 40 {
                    compare::fit(tally, &sheet.minutes, &sheet.ordinates, [n, n]);
                    compare::fit_ends(tally, &sheet.minutes, &sheet.ordinates, [n, n], FREE, FREE);
                }
            }
        }
    }
}

/// Fits without ends and their cards: with the codes of their ends, with others, and fitted anew, which changes nothing.
fn at_rest(tally: &mut Tally, random: &mut Random) {
    for n in 3..=MOST_KNOTS {
        for _ in 0..40 {
            let sheet = curves::sheet(random, n);
            let (mut slopes, mut curvatures) = (vec![0; n], vec![0; n]);
            compare::fit(tally, &sheet.minutes, &sheet.ordinates, [n, n]);
            if reference::fit(&sheet.minutes, &sheet.ordinates, &mut slopes, &mut curvatures).is_err() {
                continue;
            }
            assert_eq!((slopes[0], curvatures[0]), (0, 0), "{sheet:?}");
            for codes in [[1, 0], [0, 0], [2, 0], [0, 1]] {
                compare::write(tally, &sheet.minutes, &sheet.ordinates, &slopes, &curvatures, codes, card_size(n));
            }
            let numbers = Numbers { kind: Kind::Quintic, sheet, slopes, curvatures, left: 1, right: 0 };
            let anew = reference::refit(&numbers.bytes(), &mut vec![0; n], &mut vec![0; n]);
            assert_eq!(anew, Ok(reference::Refitted { knots: n as u32, changed: 0 }), "{numbers:?}");
            card(tally, random, &numbers.bytes());
            compare::refit(tally, &numbers.bytes(), [n; 2]);
        }
    }
}

/// Every given number at every slot of every mix of ends, and codes that are none.
fn given(tally: &mut Tally, random: &mut Random) {
    let specials = curves::given_numbers();
    let flat = Sheet { minutes: vec![0, 1, 2], ordinates: vec![0; 3] };
    let steep = Sheet { minutes: vec![7, 8, 9, 10], ordinates: vec![-384, -128, 128, 384] };
    let others: Vec<Sheet> = [3, 4, 7, 64].iter().map(|&n| curves::sheet(random, n)).collect();
    for sheet in [flat, steep].iter().chain(&others) {
        let n = sheet.minutes.len();
        for left in [0, 1, 2, 3, 65_535] {
            for right in [0, 1, 2, 3, 65_535] {
                for &number in &specials {
                    for slot in 0..4 {
                        let mut given = [0.0; 4];
                        given[slot] = number;
                        let left = End { code: left, slope: given[0], curvature: given[1] };
                        let right = End { code: right, slope: given[2], curvature: given[3] };
                        compare::fit_ends(tally, &sheet.minutes, &sheet.ordinates, [n, n], left, right);
                    }
                }
            }
        }
    }
}

/// Fits of which one number stands at a half before it is rounded: given numbers on both sides, near and a little further off.
fn halves(tally: &mut Tally, random: &mut Random) {
    let given_codes = [[1, 0], [2, 0], [0, 1], [0, 2], [1, 1], [1, 2], [2, 1], [2, 2]];
    for count in 0..8_000 {
        let n = if count % 16 == 0 { random.within(3, 64) } else { random.within(3, 8) } as usize;
        let [left, right] = random.pick(&given_codes);
        let (sheet, ends) = curves::fitted_ends(random, n, left, right);
        let on_right = left == 0 || (right != 0 && random.once_in(2));
        let slope = ends[usize::from(on_right)].code == 1 && random.once_in(2);
        let from_the_end = random.below(n.min(5));
        let place = if on_right { n - 1 - from_the_end } else { from_the_end };
        let turn = Turn { right: on_right, slope, place, row: random.below(2) };
        let Some(half) = curves::about_a_half(&sheet, ends, turn) else { continue };
        for steps in [-1000, -60, -8, -3, -2, -1, 0, 1, 2, 3, 4, 9, 60, 1000] {
            // Neighbouring floats have neighbouring bits, but for those about 0.
            let given = f64::from_bits(half.to_bits().wrapping_add_signed(steps));
            let [left, right] = curves::turned(ends, turn, given);
            compare::fit_ends(tally, &sheet.minutes, &sheet.ordinates, [n, n], left, right);
        }
    }
}

/// Lists that differ in length, for every function that takes four.
fn lengths(tally: &mut Tally, random: &mut Random) {
    let sizes = [0, 2, 3, 4, 64, 65];
    let sheet = curves::sheet(random, 65);
    let mut holes = sheet.clone();
    curves::pierce(random, &mut holes);
    let card = curves::fitted(random, 4, 0, 0).bytes();
    let spoilt = &card[..card.len() - 1];
    let zeros = [0; 65];
    for choice in 0..sizes.len().pow(4) {
        let [a, b, c, d] = [1, 6, 36, 216].map(|power| sizes[choice / power % 6]);
        let (minutes, ordinates) = (&sheet.minutes[..a], &sheet.ordinates[..b]);
        compare::fit(tally, minutes, ordinates, [c, d]);
        let code = random.pick(&[0, 1, 2, 3]);
        compare::fit_ends(tally, minutes, ordinates, [c, d], End { code, slope: f64::NAN, curvature: 0.0 }, FREE);
        compare::write(tally, minutes, ordinates, &zeros[..c], &zeros[..d], [code, 0], random.pick(&[0, 62, 78, 1038]));
        compare::read(tally, &card, [a, b, c, d]);
        compare::read(tally, spoilt, [a, b, c, d]);
        compare::mend(tally, minutes, &holes.ordinates[..b], [c, d], random.pick(&[0, 1, 2, 66]));
    }
}

/// One spoilt or sound card, by all that reads cards; by the swing, which reads every minute, and by the
/// explanation where it has few knots.
pub(crate) fn card(tally: &mut Tally, random: &mut Random, bytes: &[u8]) {
    if bytes.len() < card_size(12) {
        compare::swing(tally, bytes);
    }
    compare::check(tally, bytes);
    let places = random.pick(&[0, 2, 3, 5, 63, 64, 66]);
    compare::read(tally, bytes, [places; 4]);
    compare::refit(tally, bytes, [places; 2]);
    let minute = if bytes.len() > 16 { u16::from_le_bytes([bytes[14], bytes[15]]) } else { 0 };
    let minute = minute.wrapping_add(random.within(0, 6) as u16);
    compare::reading(tally, bytes, minute);
    if bytes.len() < card_size(5) {
        compare::explain(tally, bytes, minute);
    }
}

/// Every change of one byte: all 255 other values, or some of them.
pub(crate) fn changed_bytes(tally: &mut Tally, random: &mut Random, bytes: &[u8], all: bool) {
    let mut changed = bytes.to_vec();
    for at in 0..bytes.len() {
        for other in 1..=255u8 {
            if all || other.is_power_of_two() || random.once_in(40) {
                changed[at] = bytes[at] ^ other;
                if all {
                    compare::check(tally, &changed);
                } else {
                    card(tally, random, &changed);
                }
            }
        }
        changed[at] = bytes[at];
    }
}

/// Every truncation, and extensions by zeros, by ones, by the card itself and by its closing record.
pub(crate) fn cut_and_extended(tally: &mut Tally, random: &mut Random, bytes: &[u8]) {
    for length in 0..bytes.len() {
        card(tally, random, &bytes[..length]);
    }
    for behind in [vec![0; 40], vec![255; 40], bytes.to_vec(), bytes[bytes.len() - 4..].to_vec()] {
        for length in 1..=behind.len() {
            card(tally, random, &[bytes, &behind[..length]].concat());
        }
    }
}

/// Heads that lie about what follows, and several changes at once.
pub(crate) fn changed_records(tally: &mut Tally, random: &mut Random, bytes: &[u8]) {
    for n in 0..=MOST_KNOTS as u16 + 2 {
        let mut changed = bytes.to_vec();
        changed[4..6].copy_from_slice(&n.to_le_bytes());
        card(tally, random, &changed);
    }
    for _ in 0..400 {
        let mut changed = bytes.to_vec();
        for _ in 0..random.within(2, 4) {
            let record = if random.once_in(3) { 0 } else { 10 + 16 * random.below((bytes.len() - 10) / 16 + 1) };
            let at = (record + 2 * random.below(8)).min(bytes.len() - 2);
            let number: u16 = random.pick(&[0, 1, 2, 3, 4, 6, 12, 16, 60, 61, 255, 256, 20_000, 20_001, 45_535, 45_536, 65_535]);
            changed[at..at + 2].copy_from_slice(&number.to_le_bytes());
        }
        if random.once_in(4) {
            changed.truncate(random.below(bytes.len()));
        }
        card(tally, random, &changed);
    }
}

fn card_bytes(tally: &mut Tally, random: &mut Random) {
    let mut few = vec![curves::table_3(), curves::p7()];
    few.extend([[0, 0], [1, 2], [2, 1]].map(|[left, right]| curves::fitted(random, 3, left, right)));
    few.push(curves::fitted(random, 12, 0, 2));
    for numbers in &few {
        changed_bytes(tally, random, &numbers.bytes(), true);
    }
    let mut more = few;
    for [left, right] in mixes() {
        for n in [3, 4, 9, 64] {
            more.push(curves::fitted(random, n, left, right));
        }
    }
    for numbers in &more {
        let bytes = numbers.bytes();
        changed_bytes(tally, random, &bytes, false);
        cut_and_extended(tally, random, &bytes);
        changed_records(tally, random, &bytes);
    }
    for length in 0..1200 {
        let noise: Vec<u8> = (0..length).map(|_| random.next() as u8).collect();
        card(tally, random, &noise);
    }
}

/// One card by reader, writer and readings.
pub(crate) fn whole_card(tally: &mut Tally, random: &mut Random, numbers: &Numbers) {
    let n = numbers.slopes.len();
    let bytes = numbers.bytes();
    compare::check(tally, &bytes);
    for places in [n - 1, n, n + 1, 66] {
        compare::read(tally, &bytes, [places; 4]);
    }
    let size = card_size(n);
    let Sheet { minutes, ordinates } = &numbers.sheet;
    let Numbers { slopes, curvatures, left, right, .. } = numbers;
    for length in [0, 1, size - 1, size, size + 1, size + random.below(200)] {
        match numbers.kind {
            Kind::Quintic => compare::write(tally, minutes, ordinates, slopes, curvatures, [*left, *right], length),
            Kind::Sloped => compare::write_slopes(tally, minutes, ordinates, slopes, curvatures, length),
        }
    }
}

/// Fitted cards of every number of knots and every mix, read at every minute.
fn readings(tally: &mut Tally, random: &mut Random) {
    for n in 3..=MOST_KNOTS {
        for [left, right] in mixes() {
            let numbers = curves::fitted(random, n, left, right);
            whole_card(tally, random, &numbers);
            if n < 12 || random.once_in(3) {
                compare::readings(tally, &numbers.bytes());
            }
        }
    }
    for gap in 1..=WIDEST_GAP {
        for _ in 0..6 {
            let other = random.within(1, WIDEST_GAP.into()) as u16;
            let minutes = vec![5, 5 + gap, 5 + gap + other];
            let ordinates = minutes.iter().map(|&x| 3 * x as i16 - 7).collect();
            let sheet = Sheet { minutes, ordinates };
            let numbers = Numbers { kind: Kind::Quintic, sheet, slopes: vec![3 * 4096; 3], curvatures: vec![0; 3], left: 0, right: 0 };
            whole_card(tally, random, &numbers);
            for place in 0..3 {
                for (slope, step) in [(true, 1), (true, -1), (false, 1), (false, -1)] {
                    let (within, _) = curves::about_the_allowance(&numbers, place, slope, step);
                    compare::readings(tally, &within.bytes());
                }
            }
        }
    }
}

/// Every minute of cards of every number of knots: the looks for a gap beside the reference's.
fn looks(tally: &mut Tally, random: &mut Random) {
    for n in 3..=MOST_KNOTS {
        for code in 0..3 {
            compare::readings(tally, &curves::fitted(random, n, code, 2 - code).bytes());
        }
    }
}

/// Minutes with every two of the weight sheet's gaps and of those about them side by side.
pub(crate) fn about_the_weight_sheet(random: &mut Random) -> Vec<Vec<u16>> {
    let pairs = ABOUT_THE_WEIGHT_SHEET.iter().flat_map(|&gap| ABOUT_THE_WEIGHT_SHEET.map(|other| [gap, other, gap]));
    pairs.map(|gaps| minutes_after(random.within(0, 60_000) as u16, &gaps)).collect()
}

/// Readings at every minute of the weight sheet's gaps and of those about them: off fitted cards with every two of them side by
/// side, and off cards with large numbers.
fn on_the_weight_sheet(tally: &mut Tally, random: &mut Random) {
    for gap in ABOUT_THE_WEIGHT_SHEET {
        for other in ABOUT_THE_WEIGHT_SHEET {
            for _ in 0..3 {
                let minutes = minutes_after(random.within(0, 60_000) as u16, &[gap, other, gap]);
                let [left, right] = random.pick(&mixes());
                compare::readings(tally, &curves::fitted_at(random, &minutes, left, right).bytes());
            }
        }
        for numbers in (0..60).filter_map(|_| curves::large_on(random, gap)) {
            compare::readings(tally, &numbers.bytes());
        }
    }
}

/// Fitted cards with slopes and curvatures moved until they jump: the last card accepted and the first refused, for each
/// number of the card, then several numbers moved a little at once.
fn near_the_allowance(tally: &mut Tally, random: &mut Random) {
    for turn in 0..40 {
        for [left, right] in mixes() {
            let n = if turn % 10 == 0 { random.within(3, 64) } else { random.within(3, 9) } as usize;
            let numbers = curves::fitted(random, n, left, right);
            for place in 0..n {
                for (slope, step) in [(true, 1), (true, -1), (false, 1), (false, -1)] {
                    let (within, past) = curves::about_the_allowance(&numbers, place, slope, step);
                    for sides in [&within, &past] {
                        compare::check(tally, &sides.bytes());
                        let Sheet { minutes, ordinates } = &sides.sheet;
                        let codes = [sides.left, sides.right];
                        compare::write(tally, minutes, ordinates, &sides.slopes, &sides.curvatures, codes, card_size(n));
                        for [left, right] in mixes() {
                            compare::check(tally, &Numbers { left, right, ..sides.clone() }.bytes());
                        }
                    }
                }
            }
            for _ in 0..60 {
                let mut moved = numbers.clone();
                let most = random.pick(&[1, 2, 4, 8]);
                for _ in 0..random.within(1, 5) {
                    moved.slopes[random.below(n)] += random.within(-most, most) as i32;
                    moved.curvatures[random.below(n)] += random.within(-most, most) as i32;
                }
                let bytes = moved.bytes();
                compare::check(tally, &bytes);
                if n < 6 {
                    compare::readings(tally, &bytes);
                }
            }
        }
    }
}

/// Cards at and past the limits: wild ones, and large ones that are sound.
fn limits(tally: &mut Tally, random: &mut Random) {
    for _ in 0..30_000 {
        let n = if random.once_in(8) { random.within(3, 64) } else { random.within(3, 6) } as usize;
        let mut numbers = curves::extreme(random, n);
        if random.once_in(6) {
            curves::spoil(random, &mut numbers.sheet);
        }
        card(tally, random, &numbers.bytes());
        let Sheet { minutes, ordinates } = &numbers.sheet;
        let length = card_size(n) + random.below(3) - 1;
        let codes = [random.pick(&[0, 1, 2, 3]), random.pick(&[0, 1, 2, 65_535])];
        compare::write(tally, minutes, ordinates, &numbers.slopes, &numbers.curvatures, codes, length);
    }
    for turn in 0..6_000 {
        let made = if turn % 2 == 0 { curves::large_and_sound(random) } else { curves::carried(random, 3 + turn / 2 % 3) };
        if let Some(numbers) = made {
            whole_card(tally, random, &numbers);
            compare::readings(tally, &numbers.bytes());
        }
    }
}

/// Writers of 0 to 66 knots, with codes that are none.
fn writers(tally: &mut Tally, random: &mut Random) {
    for n in 0..=MOST_KNOTS + 2 {
        for _ in 0..300 {
            let mut sheet = curves::sheet(random, n);
            let (mut slopes, mut curvatures) = (vec![0; n], vec![0; n]);
            let _ = reference::fit_ends(&sheet.minutes, &sheet.ordinates, &mut slopes, &mut curvatures, FREE, FREE);
            for _ in 0..random.below(3) {
                curves::spoil(random, &mut sheet);
            }
            let codes = [random.pick(&[0, 0, 1, 2, 3]), random.pick(&[0, 0, 1, 2, 65_535])];
            let length = card_size(n) + random.pick(&[0, 0, 1, 50]) - random.pick(&[0, 0, 1, 14]);
            compare::write(tally, &sheet.minutes, &sheet.ordinates, &slopes, &curvatures, codes, length);
        }
    }
}

/// One card's table: from either end, from within and from outside, into lists that are too short, just right and too long.
pub(crate) fn whole_table(tally: &mut Tally, random: &mut Random, numbers: &Numbers) {
    let bytes = numbers.bytes();
    let minutes = &numbers.sheet.minutes;
    let (first, last) = (minutes[0], minutes[minutes.len() - 1]);
    let all = usize::from(last - first) + 1;
    for length in [all - 1, all, all + 7] {
        compare::table(tally, &bytes, first, [length; 3]);
    }
    let within = random.within(first.into(), last.into()) as u16;
    let outside = [first.wrapping_sub(1), last.wrapping_add(1), 0, u16::MAX];
    for from in [first, first + 1, within, minutes[1], last - 1, last].into_iter().chain(outside) {
        for length in [0, 1, 2, random.below(9)] {
            compare::table(tally, &bytes, from, [length; 3]);
        }
    }
}

/// The same card with its last knot at the last of all minutes.
pub(crate) fn at_the_last_minute(numbers: &Numbers) -> Numbers {
    let mut moved = numbers.clone();
    let minutes = &mut moved.sheet.minutes;
    let behind = u16::MAX - minutes[minutes.len() - 1];
    minutes.iter_mut().for_each(|minute| *minute += behind);
    moved
}

/// Tables off sound cards, wild ones and spoilt ones, into lists of one length and of several.
fn tables(tally: &mut Tally, random: &mut Random) {
    for n in 3..=MOST_KNOTS {
        for [left, right] in mixes() {
            if n < 9 || n == MOST_KNOTS || random.once_in(6) {
                let numbers = curves::fitted(random, n, left, right);
                whole_table(tally, random, &numbers);
                whole_table(tally, random, &at_the_last_minute(&numbers));
            }
        }
    }
    for turn in 0..600 {
        let made = if turn % 2 == 0 { curves::large_and_sound(random) } else { curves::carried(random, 3 + turn / 2 % 3) };
        if let Some(numbers) = made {
            whole_table(tally, random, &numbers);
        }
    }
    let sound = curves::fitted(random, 5, 0, 0);
    let bytes = sound.bytes();
    let first = sound.sheet.minutes[0];
    for spoilt in 0..=bytes.len() {
        for from in [first, first.wrapping_sub(1)] {
            let mut changed = bytes.clone();
            if spoilt < bytes.len() {
                changed[spoilt] ^= 1 << random.below(8);
                compare::table(tally, &bytes[..spoilt], from, [4; 3]);
            }
            let sizes = [0, 1, 4, 300];
            for choice in 0..sizes.len().pow(3) {
                compare::table(tally, &changed, from, [1, 4, 16].map(|power| sizes[choice / power % 4]));
            }
        }
    }
    for _ in 0..4_000 {
        let n = random.within(3, 6) as usize;
        let mut numbers = curves::extreme(random, n);
        if random.once_in(3) {
            curves::spoil(random, &mut numbers.sheet);
        }
        let from = numbers.sheet.minutes[0].wrapping_add(random.within(-1, 6) as u16);
        compare::table(tally, &numbers.bytes(), from, [random.below(5); 3]);
    }
}

/// What the gaps of accepted cards did, each kind by its name.
#[derive(Default)]
struct Kinds(BTreeMap<&'static str, u64>);

impl Kinds {
    fn count(&mut self, numbers: &Numbers) {
        let Ok(card) = reference::check(&numbers.bytes()) else { return };
        let gaps: Vec<Swing> = (0..card.minutes.len() - 1).map(|knot| reference::swing_of_gap(&card, knot)).collect();
        let largest = gaps.iter().map(|gap| gap.larger()).max().unwrap_or(0);
        let furthest: Vec<&Swing> = gaps.iter().filter(|gap| gap.larger() == largest).collect();
        let (first, several) = (furthest[0], furthest.len() > 1);
        let met = [
            ("within", largest == 0),
            ("one gap below", !several && first.below > first.above),
            ("one gap above", !several && first.below < first.above),
            ("several gaps to one side", largest > 0 && several && furthest.iter().all(|gap| gap.below == first.below)),
            ("several gaps, below first", several && furthest[1].above == largest && first.above < largest),
            ("several gaps, above first", several && furthest[1].below == largest && first.below < largest),
            ("both sides, more below", first.below > first.above && first.above > 0),
            ("both sides, more above", first.above > first.below && first.below > 0),
            ("both sides alike", largest > 0 && first.below == first.above),
            ("the last gap", first.knot as usize == gaps.len() - 1),
            ("the furthest there is", largest == 33_600),
        ];
        for (kind, met) in met {
            *self.0.entry(kind).or_default() += u64::from(met);
        }
    }
}

/// How far the curves of cards swing: of fitted cards on many gaps, of cards with the largest numbers, with
/// gaps that swing alike, with swings to both sides, with values at a half, and of cards that are refused.
fn swings(tally: &mut Tally, random: &mut Random) {
    for n in 3..=MOST_KNOTS {
        for [left, right] in mixes() {
            if n < 9 || n == MOST_KNOTS || random.once_in(6) {
                let numbers = curves::fitted(random, n, left, right);
                compare::swing(tally, &numbers.bytes());
                compare::swing(tally, &at_the_last_minute(&numbers).bytes());
            }
        }
    }
    for gaps in [1, 2, 3, 15, 30, 59, 60].iter().flat_map(|gap| [1, 2, 3, 15, 30, 59, 60].map(|other| [*gap, other, *gap])) {
        for [left, right] in mixes() {
            let minutes = minutes_after(random.within(0, 60_000) as u16, &gaps);
            compare::swing(tally, &curves::fitted_at(random, &minutes, left, right).bytes());
        }
    }
    let mut kinds = Kinds::default();
    for turn in 0..3_000 {
        let made = [
            if turn % 2 == 0 { curves::large_and_sound(random) } else { curves::carried(random, 3 + turn / 2 % 3) },
            curves::turned_over_in_a_gap(random),
            curves::mirrored(random, 3 + turn % 6),
            curves::furthest_from_its_knots(random),
            Some(curves::parabola(random)),
        ];
        for numbers in made.into_iter().flatten() {
            kinds.count(&numbers);
            compare::swing(tally, &numbers.bytes());
        }
    }
    for (kind, times) in kinds.0 {
        assert!(times > 0, "no card of the kind: {kind}");
    }
    for _ in 0..4_000 {
        let n = random.within(3, 6) as usize;
        let mut numbers = curves::extreme(random, n);
        if random.once_in(3) {
            curves::spoil(random, &mut numbers.sheet);
        }
        compare::swing(tally, &numbers.bytes());
    }
}

/// The reasons that refused cards had: at which knot, which orders were over there, and what was asked of it;
/// and the ends that were over in an order which their code does not ask for.
#[derive(Default)]
struct Reasons(BTreeMap<[&'static str; 3], u64>);

impl Reasons {
    fn count(&mut self, bytes: &[u8]) {
        let Ok(card) = reference::before_its_jumps(bytes) else { return };
        let last = card.minutes.len() - 1;
        let refused = reference::check(bytes).err().map(|refusal| refusal.place as usize);
        let over = |place: usize| match reference::over_at(&card, place) {
            [false, false] => "none",
            [true, false] => "the third alone",
            [false, true] => "the fourth alone",
            [true, true] => "both",
        };
        if let Some(place) = refused {
            let (at, code) = match place {
                0 => ("first", card.left),
                _ if place == last => ("last", card.right),
                _ => ("inner", 0),
            };
            let asked = match card.kind {
                Kind::Quintic => ["both asked", "none asked", "the fourth asked"][usize::from(code)],
                Kind::Sloped => "given slopes",
            };
            *self.0.entry([at, over(place), asked]).or_default() += 1;
        }
        for (at, place, code) in [("first", 0, card.left), ("last", last, card.right)] {
            if code > 0 && refused.map_or(true, |refused| refused > place) {
                *self.0.entry([at, over(place), ["", "passed, none asked", "passed, the fourth asked"][usize::from(code)]]).or_default() +=
                    1;
            }
        }
    }

    fn all(&self) {
        let mut wanted = Vec::new();
        for at in ["first", "inner", "last"] {
            wanted.extend(["the third alone", "the fourth alone", "both"].map(|over| [at, over, "both asked"]));
            wanted.extend(["the third alone", "both"].map(|over| [at, over, "given slopes"]));
        }
        for at in ["first", "last"] {
            wanted.extend(["the fourth alone", "both"].map(|over| [at, over, "the fourth asked"]));
            wanted.push([at, "the third alone", "passed, the fourth asked"]);
            wanted.extend(["the third alone", "the fourth alone", "both"].map(|over| [at, over, "passed, none asked"]));
        }
        for reason in wanted {
            assert!(self.0.contains_key(&reason), "no card was so: {reason:?}");
        }
    }
}

/// Of every minute of an accepted card: its parts add up to the exact curve's numerator, and that rounds to
/// the value that is read there.
fn parts_add_up(bytes: &[u8]) {
    let Ok(card) = reference::check(bytes) else { return };
    for minute in card.minutes[0]..=card.minutes[card.minutes.len() - 1] {
        let explained = reference::explain_of(&card, minute).expect("a minute of the card");
        let (left, right) = (card.knots[explained.gap as usize], card.knots[explained.gap as usize + 1]);
        assert_eq!(left.x + i128::from(explained.minutes), minute.into());
        assert_eq!(explained.sum(), reference::numerator(left, right).at(explained.minutes.into()), "{card:?} at {minute}");
        let value = reference::nearest_even(explained.sum(), explained.denominator);
        assert_eq!(value, reference::reading_of(&card, minute).expect("a minute of the card").value.into(), "{card:?} at {minute}");
    }
}

/// One card explained at every minute, the parts seen to add up.
fn explained(tally: &mut Tally, numbers: &Numbers) {
    let bytes = numbers.bytes();
    parts_add_up(&bytes);
    compare::explanations(tally, &bytes);
}

/// Cards with the largest numbers on a gap, each part of some value above 0 and of some below: on a gap of
/// one minute the ordinates' alone.
fn explained_at_the_limits(tally: &mut Tally, random: &mut Random, gap: u16) {
    let (mut above, mut below) = ([false; 6], [false; 6]);
    for signs in 0..8 {
        let [ordinate, slope, curvature] = [1, 2, 4].map(|bit| if signs & bit == 0 { 1 } else { -1 });
        let numbers = curves::largest_on(gap, ordinate, slope, curvature);
        let card = reference::check(&numbers.bytes()).unwrap_or_else(|refusal| panic!("{refusal:?} of {numbers:?}"));
        for minute in card.minutes[0]..=card.minutes[2] {
            let parts = reference::explain_of(&card, minute).expect("a minute of the card").parts;
            (0..6).for_each(|part| above[part] |= parts[part] > 0);
            (0..6).for_each(|part| below[part] |= parts[part] < 0);
        }
        explained(tally, &numbers);
    }
    let parts = if gap == 1 { 2 } else { 6 };
    assert!(above[..parts].iter().chain(&below[..parts]).all(|met| *met), "a part of one sign on a gap of {gap}");
    for numbers in (0..3).filter_map(|_| curves::large_on(random, gap)) {
        explained(tally, &numbers);
    }
}

/// A card with one number or two of a knot changed by a few units, which as a rule is refused with 10; at an
/// end now and then both of them together, so that one order alone jumps.
fn changed_a_little(random: &mut Random, numbers: &Numbers) -> (Numbers, usize) {
    let n = numbers.slopes.len();
    let mut changed = numbers.clone();
    let place = random.pick(&[0, 1, n / 2, n - 2, n - 1]);
    let most = random.pick(&[2, 4, 8, 30, 200]);
    if (place == 0 || place == n - 1) && random.once_in(2) {
        let minutes = &numbers.sheet.minutes;
        let (sign, h) = if place == 0 { (-1, minutes[1] - minutes[0]) } else { (1, minutes[n - 1] - minutes[n - 2]) };
        // With 16m + 3Mh as it was the third alone jumps, and with 12m + 3Mh the fourth, on the left.
        let (curvature, under) = (random.within(-most, most), random.pick(&[16, 12]));
        let slope = reference::nearest_even(3 * i128::from(curvature) * i128::from(h), under);
        changed.slopes[place] += sign * slope as i32;
        changed.curvatures[place] += curvature as i32;
        return (changed, place);
    }
    for _ in 0..random.within(1, 2) {
        let list = if random.once_in(2) { &mut changed.slopes } else { &mut changed.curvatures };
        list[place] += random.within(-most, most) as i32;
    }
    (changed, place)
}

/// Cards about their allowances, and cards changed by a few units, each with the reason of its refusal, at
/// minutes of theirs and behind them.
fn reasons(tally: &mut Tally, random: &mut Random) {
    let mut met = Reasons::default();
    for turn in 0..1_000 {
        let (n, [left, right]) = (random.within(3, 6) as usize, mixes()[turn % 9]);
        let numbers = match turn % 4 {
            0 => curves::fitted_to_slopes(random, n),
            1 => curves::fitted(random, n, left, right),
            // Near both orders at its ends, whatever is asked there.
            _ => Numbers { left, right, ..curves::fitted(random, n, 0, 0) },
        };
        for _ in 0..9 {
            let (changed, place) = changed_a_little(random, &numbers);
            met.count(&changed.bytes());
            let behind = u16::from(random.once_in(4)) * 60;
            compare::explain(tally, &changed.bytes(), changed.sheet.minutes[place].wrapping_add(behind));
        }
        if turn % 8 == 0 {
            let (place, slope, step) = (random.below(n), random.once_in(2), random.pick(&[1, -1]));
            let (within, past) = curves::about_the_allowance(&numbers, place, slope, step);
            for sides in [&within, &past] {
                met.count(&sides.bytes());
                compare::explain(tally, &sides.bytes(), sides.sheet.minutes[place]);
                compare::explain(tally, &sides.headed(random.pick(&[1, 6])), sides.sheet.minutes[0]);
            }
        }
    }
    met.all();
}

/// Explanations: of Table 3's card and of fitted ones on many gaps, of cards with the largest numbers, of
/// cards that are refused for a jump, of both kinds of card, and of cards that are refused for all else.
fn explanations(tally: &mut Tally, random: &mut Random) {
    for numbers in [curves::table_3(), curves::table_3_sloped(), curves::p7()] {
        explained(tally, &numbers);
        explained(tally, &at_the_last_minute(&numbers));
    }
    for minutes in about_the_weight_sheet(random) {
        let [left, right] = random.pick(&mixes());
        explained(tally, &curves::fitted_at(random, &minutes, left, right));
        explained(tally, &curves::fitted_to_slopes_at(random, &minutes));
    }
    for gap in 1..=WIDEST_GAP {
        let minutes = minutes_after(random.within(0, 60_000) as u16, &[gap, random.within(1, 60) as u16]);
        let [left, right] = random.pick(&mixes());
        explained(tally, &curves::fitted_at(random, &minutes, left, right));
        explained(tally, &curves::fitted_to_slopes_at(random, &minutes));
        explained_at_the_limits(tally, random, gap);
    }
    for n in 3..=MOST_KNOTS {
        let [left, right] = random.pick(&mixes());
        for numbers in [curves::fitted(random, n, left, right), curves::fitted_to_slopes(random, n)] {
            let bytes = numbers.bytes();
            for &minute in &numbers.sheet.minutes {
                compare::explain(tally, &bytes, minute.saturating_sub(random.below(2) as u16));
            }
        }
    }
    reasons(tally, random);
    for turn in 0..4_000 {
        let n = random.within(3, 6) as usize;
        let mut numbers = curves::extreme(random, n);
        if turn % 2 == 0 {
            numbers = Numbers { kind: Kind::Sloped, left: random.pick(&[0, 0, 0, 0, 1]), right: 0, ..numbers };
        }
        if random.once_in(4) {
            curves::spoil(random, &mut numbers.sheet);
        }
        compare::explain(tally, &numbers.bytes(), numbers.sheet.minutes[random.below(n)]);
    }
}

/// A card fitted anew, into lists of every useful length, equal and not.
pub(crate) fn refit_into_all(tally: &mut Tally, bytes: &[u8], n: usize) {
    for places in [0, n - 1, n, n + 1, 66] {
        compare::refit(tally, bytes, [places; 2]);
        compare::refit(tally, bytes, [places, n + 2]);
        compare::refit(tally, bytes, [n + 2, places]);
    }
}

/// Fitted cards of every number of knots and every mix of ends: as they were fitted, with one number changed a little or as far as it passes the jump test, with
/// several changed, with other codes, and spoilt.
fn refits(tally: &mut Tally, random: &mut Random) {
    for n in 3..=MOST_KNOTS {
        for [left, right] in mixes() {
            let numbers = curves::fitted(random, n, left, right);
            refit_into_all(tally, &numbers.bytes(), n);
            for place in 0..n {
                for change in [-1, 1, random.within(-40, 40) as i32] {
                    let mut changed = numbers.clone();
                    changed.slopes[place] += change;
                    compare::refit(tally, &changed.bytes(), [n; 2]);
                    let mut changed = numbers.clone();
                    changed.curvatures[place] += change;
                    compare::refit(tally, &changed.bytes(), [n; 2]);
                }
            }
            for place in [0, random.below(n), n - 1] {
                for (slope, step) in [(true, 1), (true, -1), (false, 1), (false, -1)] {
                    let (within, past) = curves::about_the_allowance(&numbers, place, slope, step);
                    compare::refit(tally, &within.bytes(), [n + random.below(3); 2]);
                    compare::refit(tally, &past.bytes(), [n; 2]);
                }
            }
            for _ in 0..10 {
                let mut changed = numbers.clone();
                for _ in 0..random.within(1, 6) {
                    changed.slopes[random.below(n)] += random.within(-2, 2) as i32;
                    changed.curvatures[random.below(n)] += random.within(-2, 2) as i32;
                }
                compare::refit(tally, &changed.bytes(), [n; 2]);
            }
            for [left, right] in mixes() {
                compare::refit(tally, &Numbers { left, right, ..numbers.clone() }.bytes(), [n; 2]);
            }
        }
    }
    for turn in 0..6_000 {
        let made = if turn % 2 == 0 { curves::large_and_sound(random) } else { curves::carried(random, 3 + turn / 2 % 3) };
        for numbers in made.into_iter().chain([curves::extreme(random, 3)]) {
            compare::refit(tally, &numbers.bytes(), [66; 2]);
        }
    }
    refits_past_the_limit(tally, random);
}

/// Numbers near an exact solution of which one is a card unit or two beyond the limit, and stands on the card
/// at the limit itself.
fn cut_at_the_limit(random: &mut Random) -> Option<Numbers> {
    let n = random.within(3, 6) as usize;
    let mut minutes = vec![0];
    for i in 1..n {
        minutes.push(minutes[i - 1] + random.within(1, 12) as u16);
    }
    let limit = i128::from(CARD_NUMBER_LIMIT);
    let largest = |numbers: &[[i128; 2]]| numbers.iter().flatten().map(|number| number.abs()).max().unwrap_or(0);
    let solved = |ordinates: &[i16]| {
        let pairs = reference::eliminate(&minutes, ordinates, reference::FREE, reference::FREE).ok()?;
        Some(pairs.iter().map(|pair| pair.map(reference::card_units)).collect::<Vec<[i128; 2]>>())
    };
    let first: Vec<i16> = (0..n).map(|_| random.within(-20_000, 20_000) as i16).collect();
    let size = largest(&solved(&first)?);
    if size < limit {
        return None;
    }
    let ordinates: Vec<i16> = first.iter().map(|&y| (i128::from(y) * (limit + 1) / size) as i16).collect();
    let numbers = solved(&ordinates)?;
    if !(limit + 1..=limit + 2).contains(&largest(&numbers)) {
        return None;
    }
    let cut = |number: &[i128; 2], of: usize| number[of].clamp(-limit, limit) as i32;
    let (slopes, curvatures) = numbers.iter().map(|number| (cut(number, 0), cut(number, 1))).unzip();
    Some(Numbers { kind: Kind::Quintic, sheet: Sheet { minutes, ordinates }, slopes, curvatures, left: 0, right: 0 })
}

/// Cards that are accepted, and whose fresh fit is refused with 9.
fn refits_past_the_limit(tally: &mut Tally, random: &mut Random) {
    let mut met = 0;
    for _ in 0..60_000 {
        let Some(numbers) = cut_at_the_limit(random) else { continue };
        let (bytes, n) = (numbers.bytes(), numbers.slopes.len());
        let refused = reference::refit(&bytes, &mut vec![0; n], &mut vec![0; n]).is_err_and(|refusal| refusal.number == 9);
        met += usize::from(reference::check(&bytes).is_ok() && refused);
        refit_into_all(tally, &bytes, n);
    }
    assert!(met > 0, "no accepted card whose fresh fit is refused");
}

/// One sheet mended, with a list of changes that has no place, one too few, just enough and more than that.
fn mend_into_all(tally: &mut Tally, sheet: &Sheet) {
    let n = sheet.minutes.len();
    let holes = sheet.ordinates.iter().filter(|&&ordinate| ordinate == HOLE).count();
    for room in [0, holes.saturating_sub(1), holes, holes + 1, 66] {
        compare::mend(tally, &sheet.minutes, &sheet.ordinates, [n, n], room);
    }
}

/// The minutes from a first one on, with these gaps.
fn minutes_after(first: u16, gaps: &[u16]) -> Vec<u16> {
    let mut minutes = vec![first];
    for gap in gaps {
        minutes.push(minutes[minutes.len() - 1] + gap);
    }
    minutes
}

/// A sheet whose ends alone are sound.
fn hollow(minutes: Vec<u16>, left: i16, right: i16) -> Sheet {
    let mut ordinates = vec![HOLE; minutes.len()];
    ordinates[0] = left;
    ordinates[minutes.len() - 1] = right;
    Sheet { minutes, ordinates }
}

/// Lines on both sides of zero, so that many a hole stands at a half: one hole, two in a row, three in a row.
fn mends_at_a_half(tally: &mut Tally) {
    let rows: [&[u16]; 14] = [
        &[1, 1],
        &[2, 2],
        &[1, 3],
        &[3, 1],
        &[7, 7],
        &[1, 59],
        &[30, 30],
        &[60, 60],
        &[59, 60],
        &[1, 1, 1],
        &[1, 2, 1],
        &[5, 14, 9],
        &[60, 30, 30],
        &[1, 19, 17, 3],
    ];
    for gaps in rows {
        for left in -6..=6 {
            for right in -6..=6 {
                let sheet = hollow(minutes_after(3, gaps), left, right);
                compare::mend(tally, &sheet.minutes, &sheet.ordinates, [gaps.len() + 1; 2], gaps.len() - 1);
            }
        }
    }
}

/// Lines between the limits, over few and many holes, up to the last of all minutes; and ordinates about the limits and the mark
/// beside a hole.
fn mends_at_the_limits(tally: &mut Tally, random: &mut Random) {
    let limit = ORDINATE_LIMIT;
    for n in [3, 4, 5, 17, 63, MOST_KNOTS] {
        for gap in [1, 2, 59, WIDEST_GAP] {
            let span = gap * (n as u16 - 1);
            for first in [0, u16::MAX - span] {
                let minutes = minutes_after(first, &vec![gap; n - 1]);
                for left in [limit, limit - 1, -limit, 1 - limit] {
                    for right in [limit, limit - 1, 1, 0, -1, -limit, 1 - limit] {
                        compare::mend(tally, &minutes, &hollow(minutes.clone(), left, right).ordinates, [n, n], MOST_KNOTS);
                    }
                }
            }
        }
    }
    for ordinate in [limit, limit + 1, i16::MAX, -limit, -limit - 1, HOLE + 1, HOLE] {
        for place in 0..5 {
            for hole in 0..5 {
                let mut sheet = Sheet { minutes: (0..5).map(|i| 60 * i).collect(), ordinates: vec![random.within(-9, 9) as i16; 5] };
                sheet.ordinates[hole] = HOLE;
                sheet.ordinates[place] = ordinate;
                mend_into_all(tally, &sheet);
            }
        }
    }
}

/// Sheets of 0 to 66 knots with holes, sound and spoilt, mended; and the same sheets to fit, writer and card test, for which a hole
/// is an ordinate beyond the limit.
fn mends(tally: &mut Tally, random: &mut Random) {
    for n in 0..=MOST_KNOTS + 2 {
        for turn in 0..60 {
            let mut sheet = curves::sheet(random, n);
            curves::pierce(random, &mut sheet);
            for _ in 0..turn % 3 {
                curves::spoil(random, &mut sheet);
            }
            mend_into_all(tally, &sheet);
            if turn % 6 == 0 {
                let Sheet { minutes, ordinates } = &sheet;
                compare::fit(tally, minutes, ordinates, [n, n]);
                compare::write(tally, minutes, ordinates, &vec![0; n], &vec![0; n], [0, 0], card_size(n));
                let numbers = Numbers { kind: Kind::Quintic, sheet, slopes: vec![0; n], curvatures: vec![0; n], left: 0, right: 0 };
                compare::check(tally, &numbers.bytes());
            }
        }
    }
    mends_at_a_half(tally);
    mends_at_the_limits(tally, random);
}

/// The numbers that the comparisons of each function have to meet, so that inputs which no longer reach one of them are seen. 8 is
/// missing, which no input is known to meet, and the fits' 10, which none of these does.
const TO_BE_MET: [(&str, &[u32]); 18] = [
    ("mean", &[0, 16, 12, 13, 23, 19]),
    ("fit", &[0, 3, 1, 2, 4, 5, 6, 9]),
    ("fit_ends", &[0, 3, 1, 2, 15, 4, 5, 6, 7, 9]),
    ("fit_slopes", &[0, 3, 1, 2, 4, 5, 6, 9]),
    ("write", &[0, 3, 1, 2, 15, 4, 5, 6, 9, 10, 26]),
    ("write_slopes", &[0, 3, 1, 2, 4, 5, 6, 9, 10, 26]),
    ("check", &[0, 14, 1, 2, 15, 4, 5, 6, 9, 10]),
    ("read", &[0, 3, 14, 1, 2, 15, 4, 5, 6, 9, 10, 26]),
    ("reading", &[0, 14, 1, 2, 15, 4, 5, 6, 9, 10, 11]),
    ("table", &[0, 3, 14, 15, 4, 5, 6, 9, 10, 11]),
    ("explain", &[0, 14, 1, 2, 15, 4, 5, 6, 9, 10, 11]),
    ("swing", &[0, 14, 1, 2, 15, 4, 5, 6, 9, 10]),
    ("preheat", &[0, 1, 24, 6, 25, 11]),
    ("refit", &[0, 3, 14, 1, 2, 15, 4, 5, 6, 9, 10, 26]),
    ("mend", &[0, 3, 1, 2, 4, 5, 6, 17, 18, 9]),
    ("book_find", &[0, 14, 22, 20, 1, 2, 15, 4, 5, 6, 9, 10]),
    ("book_put", &[0, 14, 22, 1, 2, 15, 4, 5, 6, 9, 10, 21]),
    ("book_remove", &[0, 14, 22, 20]),
];

/// Says which of them were not met, and whether all were.
fn all_met(tally: &Tally) -> bool {
    let mut all = true;
    for (function, numbers) in TO_BE_MET {
        for number in numbers.iter().filter(|&&number| !tally.met.contains_key(&(function, number))) {
            println!("no comparison of {function} met {number}");
            all = false;
        }
    }
    all
}

type Group = fn(&mut Tally, &mut Random);

/// Runs every group, on all its questions or on a part drawn by the seed, prints the numbers, and says
/// whether nothing differed and, of all questions, nothing was left unmet: a part may miss a number that few
/// of them meet.
pub fn run(part: Option<u64>) -> bool {
    let groups: [(&str, Group); 34] = [
        ("logs", logs),
        ("fits", fits),
        ("given numbers", given),
        ("fits at a half", halves),
        ("lists of unequal lengths", lengths),
        ("writers", writers),
        ("bytes of cards", card_bytes),
        ("readings", readings),
        ("near the allowance", near_the_allowance),
        ("limits", limits),
        ("tables", tables),
        ("cards fitted anew", refits),
        ("sheets with holes", mends),
        ("bytes of books", books::bytes_of_books),
        ("books about their limits", books::limits_of_books),
        ("books in use", books::books_in_use),
        ("gaps of the weight sheet", on_the_weight_sheet),
        ("cards that start at rest", at_rest),
        ("looks for a gap", looks),
        ("how far curves swing", swings),
        ("fits to given slopes", slopes::fits),
        ("fits to given slopes at a half", slopes::at_a_half),
        ("cards of given slopes", slopes::cards),
        ("readings off given slopes", slopes::readings),
        ("given slopes near the allowance", slopes::near_the_allowance),
        ("given slopes at the limit and fitted anew", slopes::fresh_fits_and_limits),
        ("books of both kinds of card", books::books_of_both_kinds),
        ("explanations", explanations),
        ("tables of the pre-heater", preheater::tables),
        ("the pre-heater at a half", preheater::at_a_half),
        ("what the pre-heater refuses", preheater::refusals),
        ("rooms taken out of any bytes", removals::bytes_of_books),
        ("rooms taken out of books and put in again", removals::books),
        ("rooms put in and taken out in turn", removals::turns),
    ];
    let mut tally = Tally::new(part);
    for (seed, (name, group)) in groups.iter().enumerate() {
        let (before, start) = (tally.comparisons, Instant::now());
        group(&mut tally, &mut Random::new(seed as u64));
        println!("{name}: {} comparisons in {:.1} s", tally.comparisons - before, start.elapsed().as_secs_f64());
    }
    let mut numbers: BTreeMap<u32, u64> = BTreeMap::new();
    for (&(_, number), times) in &tally.met {
        *numbers.entry(number).or_default() += times;
    }
    let met: Vec<String> = numbers.iter().map(|(number, times)| format!("{number}: {times}")).collect();
    println!("answers by number: {}", met.join(", "));
    println!("{} comparisons, {} differences", tally.comparisons, tally.differences);
    (part.is_some() || all_met(&tally)) && tally.differences == 0
}
