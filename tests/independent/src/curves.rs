//! Makes knots and cards to compare on: sheets of many shapes, fitted cards, cards put together by hand at the limits, and
//! cards that stand just within or just past the allowance.

use crate::random::Random;
use crate::reference::{self, headed_bytes, End, Kind, Knot, CARD_NUMBER_LIMIT, FREE, HOLE, ORDINATE_LIMIT, WIDEST_GAP};

/// Minutes and ordinates.
#[derive(Clone, Debug)]
pub struct Sheet {
    pub minutes: Vec<u16>,
    pub ordinates: Vec<i16>,
}

/// The numbers of a card before they are bytes, sound or not.
#[derive(Clone, Debug)]
pub struct Numbers {
    pub kind: Kind,
    pub sheet: Sheet,
    pub slopes: Vec<i32>,
    pub curvatures: Vec<i32>,
    pub left: u16,
    pub right: u16,
}

impl Numbers {
    pub fn bytes(&self) -> Vec<u8> {
        self.headed(self.kind.head())
    }

    /// The same under a head of another number.
    pub fn headed(&self, head: u16) -> Vec<u8> {
        let Sheet { minutes, ordinates } = &self.sheet;
        headed_bytes(head, minutes, ordinates, &self.slopes, &self.curvatures, self.left, self.right)
    }

    pub fn accepted(&self) -> bool {
        reference::check(&self.bytes()).is_ok()
    }

    fn knot(&mut self, x: u16, y: i16, m: i32, c: i32) {
        self.sheet.minutes.push(x);
        self.sheet.ordinates.push(y);
        self.slopes.push(m);
        self.curvatures.push(c);
    }
}

/// Gaps that keep to the limit: all narrow, all widest, alike, from narrow to wide, in turn.
fn gaps(random: &mut Random, count: usize) -> Vec<u16> {
    let widest = i64::from(WIDEST_GAP);
    let alike = random.within(1, widest) as u16;
    let shape = random.below(6);
    let one = |i: usize, random: &mut Random| match shape {
        0 => 1,
        1 => WIDEST_GAP,
        2 => alike,
        3 => random.within(1, 8) as u16,
        4 => [1, WIDEST_GAP][i % 2],
        _ => random.within(1, widest) as u16,
    };
    (0..count).map(|i| one(i, random)).collect()
}

/// A first minute for a sheet of this span: 0, the last that fits, or any.
fn first_minute(random: &mut Random, span: u16) -> u16 {
    let last = u16::MAX - span;
    match random.below(4) {
        0 => 0,
        1 => last,
        _ => random.within(0, last.into()) as u16,
    }
}

/// Ordinates within the limit: a walk, a line, a parabola, or anything.
fn ordinates(random: &mut Random, minutes: &[u16]) -> Vec<i16> {
    let limit = i64::from(ORDINATE_LIMIT);
    let shape = random.below(8);
    let steep = random.pick(&[1, 5, 20, 60, 200]);
    let (tilt, bend) = (random.within(-260, 260), random.within(-130, 130));
    let mut walk = random.within(-limit / 2, limit / 2);
    let start = walk;
    let mut one = |i: usize| {
        let gap = if i == 0 { 0 } else { i64::from(minutes[i].wrapping_sub(minutes[i - 1])) };
        let x = i64::from(minutes[i].wrapping_sub(minutes[0]));
        walk += random.within(-steep * gap, steep * gap);
        let number = match shape {
            0 => start + tilt * x,
            1 => start + bend * x * x / 16,
            2 => random.within(-limit, limit),
            3 => random.pick(&[-limit, limit]),
            _ => walk,
        };
        number.clamp(-limit, limit) as i16
    };
    (0..minutes.len()).map(&mut one).collect()
}

/// A sheet that keeps to every limit but perhaps the number of knots.
pub fn sheet(random: &mut Random, n: usize) -> Sheet {
    let gaps = gaps(random, n.saturating_sub(1));
    let mut minute = first_minute(random, gaps.iter().sum());
    let mut minutes: Vec<u16> = Vec::new();
    for i in 0..n {
        if i > 0 {
            minute += gaps[i - 1];
        }
        minutes.push(minute);
    }
    let ordinates = ordinates(random, &minutes);
    Sheet { minutes, ordinates }
}

/// Spoils one knot: an equal or falling minute, a gap past the limit, an ordinate at or past its limit.
pub fn spoil(random: &mut Random, sheet: &mut Sheet) {
    if sheet.minutes.is_empty() {
        return;
    }
    let i = random.below(sheet.minutes.len());
    let before = sheet.minutes[i.saturating_sub(1)];
    match random.below(7) {
        0 => sheet.minutes[i] = before,
        1 => sheet.minutes[i] = before.wrapping_sub(random.within(1, 3) as u16),
        2 => {
            let shift = before.wrapping_add(WIDEST_GAP + 1).wrapping_sub(sheet.minutes[i]);
            sheet.minutes[i..].iter_mut().for_each(|minute| *minute = minute.wrapping_add(shift));
        }
        3 => sheet.minutes[i] = random.next() as u16,
        4 => sheet.ordinates[i] = random.pick(&[ORDINATE_LIMIT, -ORDINATE_LIMIT]),
        5 => sheet.ordinates[i] = random.pick(&[ORDINATE_LIMIT + 1, -ORDINATE_LIMIT - 1]),
        _ => sheet.ordinates[i] = random.pick(&[i16::MIN, i16::MAX]),
    }
}

/// Makes holes in a sheet: mostly between its ends, one, some, a row or all; and in other turns none, a row at an end, anywhere, or
/// all knots.
pub fn pierce(random: &mut Random, sheet: &mut Sheet) {
    let n = sheet.ordinates.len();
    if n == 0 {
        return;
    }
    let (one, other) = (random.below(n), random.below(n));
    let (from, to) = (one.min(other), one.max(other));
    let shape = random.below(12);
    for place in 0..n {
        let inner = 0 < place && place < n - 1;
        let hole = match shape {
            0 => false,
            1 => inner && place == from,
            2 => inner && random.once_in(2),
            3 => inner && from <= place && place <= to,
            4 => inner,
            5 => place <= from,
            6 => place >= to,
            7 => true,
            8 => random.once_in(4),
            _ => inner && random.once_in(5),
        };
        if hole {
            sheet.ordinates[place] = HOLE;
        }
    }
}

/// Given numbers about every edge: the limit, what is no number, what is hardly one, and halves of card units.
pub fn given_numbers() -> Vec<f64> {
    let half_unit = 0.5 / 4096.0;
    let mut sizes = vec![
        0.0,
        256.0,
        256.0f64.next_up(),
        256.0f64.next_down(),
        f64::INFINITY,
        f64::NAN,
        f64::from_bits(0x7FF0_0000_0000_0001),
        f64::from_bits(1),
        f64::MIN_POSITIVE,
        f64::MIN_POSITIVE.next_down(),
        f64::MAX,
        1.0 / 3.0,
        255.9,
    ];
    for halves in [1.0, 2.0, 3.0, 5.0, 7.0, 1_001.0, 1_003.0, 2_097_151.0] {
        let tie: f64 = halves * half_unit;
        sizes.extend([tie, tie.next_up(), tie.next_down()]);
    }
    sizes.iter().flat_map(|&size| [size, -size]).collect()
}

/// An end of this code with numbers that are mostly sound.
pub fn end(random: &mut Random, code: u16, specials: &[f64]) -> End {
    let mut number = || match random.below(12) {
        0 => random.pick(specials),
        1 => random.within(-2_097_152, 2_097_152) as f64 / 8192.0,
        2 => random.within(-256_000, 256_000) as f64 / 1000.0,
        _ => random.within(-5000, 5000) as f64 / 1000.0,
    };
    End { code, slope: number(), curvature: number() }
}

/// A sheet fitted by the reference with these end codes, where it is not refused.
fn fitted_sheet(random: &mut Random, sheet: Sheet, left: u16, right: u16) -> Option<Numbers> {
    let mut given =
        |code| End { code, slope: random.within(-3000, 3000) as f64 / 700.0, curvature: random.within(-500, 500) as f64 / 900.0 };
    let (left, right) = (given(left), given(right));
    let n = sheet.minutes.len();
    let (mut slopes, mut curvatures) = (vec![0; n], vec![0; n]);
    let fit = reference::fit_ends(&sheet.minutes, &sheet.ordinates, &mut slopes, &mut curvatures, left, right);
    fit.is_ok().then_some(Numbers { kind: Kind::Quintic, sheet, slopes, curvatures, left: left.code, right: right.code })
}

/// A card fitted by the reference, of n knots and these end codes.
pub fn fitted(random: &mut Random, n: usize, left: u16, right: u16) -> Numbers {
    loop {
        let sheet = sheet(random, n);
        if let Some(numbers) = fitted_sheet(random, sheet, left, right) {
            return numbers;
        }
    }
}

/// The same at these minutes.
pub fn fitted_at(random: &mut Random, minutes: &[u16], left: u16, right: u16) -> Numbers {
    loop {
        let sheet = Sheet { minutes: minutes.to_vec(), ordinates: ordinates(random, minutes) };
        if let Some(numbers) = fitted_sheet(random, sheet, left, right) {
            return numbers;
        }
    }
}

/// Document 01's card of Table 3.
pub fn table_3() -> Numbers {
    let sheet = Sheet { minutes: vec![0, 8, 16, 24, 32], ordinates: vec![500, 0, 500, 0, 500] };
    let (mut slopes, mut curvatures) = (vec![0; 5], vec![0; 5]);
    let fit = reference::fit_ends(&sheet.minutes, &sheet.ordinates, &mut slopes, &mut curvatures, FREE, FREE);
    assert_eq!(fit, Ok(()));
    Numbers { kind: Kind::Quintic, sheet, slopes, curvatures, left: 0, right: 0 }
}

/// Document 01's card of P7.
pub fn p7() -> Numbers {
    Numbers {
        kind: Kind::Quintic,
        sheet: Sheet { minutes: vec![0, 2, 4], ordinates: vec![0, 1, 2] },
        slopes: vec![2048; 3],
        curvatures: vec![0; 3],
        left: 0,
        right: 0,
    }
}

/// Card numbers mostly at their limits, one in a while past it: refused for jumps as a rule, and a hard test of the widths.
pub fn extreme(random: &mut Random, n: usize) -> Numbers {
    let limit = CARD_NUMBER_LIMIT;
    let mut sheet = sheet(random, n);
    if random.once_in(2) {
        sheet.ordinates.iter_mut().for_each(|y| *y = random.pick(&[ORDINATE_LIMIT, -ORDINATE_LIMIT]));
    }
    let mut number =
        || if random.once_in(6) { random.within(-i64::from(limit), limit.into()) as i32 } else { random.pick(&[limit, -limit]) };
    let mut slopes: Vec<i32> = (0..n).map(|_| number()).collect();
    let mut curvatures: Vec<i32> = (0..n).map(|_| number()).collect();
    let past = random.pick(&[limit + 1, -limit - 1, i32::MAX, i32::MIN]);
    match random.below(8) {
        0 => slopes[random.below(n)] = past,
        1 => curvatures[random.below(n)] = past,
        _ => {}
    }
    Numbers { kind: Kind::Quintic, sheet, slopes, curvatures, left: random.below(3) as u16, right: random.below(3) as u16 }
}

/// Three knots with large numbers that do not jump, on gaps of some widths.
pub fn large_and_sound(random: &mut Random) -> Option<Numbers> {
    let gap = random.pick(&[1, 2, 15, 30, WIDEST_GAP - 1, WIDEST_GAP]);
    large_on(random, gap)
}

/// The same on gaps of this width: a card alike on both sides of its middle (turned over at the middle or not), its middle
/// number taken so that the one equation left holds.
pub fn large_on(random: &mut Random, gap: u16) -> Option<Numbers> {
    let h = i64::from(gap);
    let (ordinate, card) = (i64::from(ORDINATE_LIMIT), i64::from(CARD_NUMBER_LIMIT));
    let turned = random.once_in(2);
    let mut large = |limit: i64| if random.once_in(2) { random.pick(&[limit, -limit]) } else { random.within(-limit, limit) };
    let (next_y, next_m, next_c) = (large(ordinate), large(card), large(card));
    let y = if turned { 0 } else { large(ordinate) };
    let d = 4096 * (next_y - y);
    // Turned over, the fourth must be 0 with M = 0, which gives m; else the third must be 0 with m = 0, which gives M.
    let (m, c) = if turned {
        ((30 * d - 14 * next_m * h + 2 * next_c * h * h) / (16 * h), 0)
    } else {
        (0, (20 * d - 8 * next_m * h + next_c * h * h) / (3 * h * h))
    };
    if m.abs() > card || c.abs() > card {
        return None;
    }
    let sign = if turned { -1 } else { 1 };
    let start = random.pick(&[0, 65_535 - 2 * h, 1000]);
    let sheet = Sheet { minutes: vec![], ordinates: vec![] };
    let mut numbers = Numbers { kind: Kind::Quintic, sheet, slopes: vec![], curvatures: vec![], left: 1, right: 1 };
    numbers.knot(start as u16, (sign * next_y) as i16, (-sign * next_m) as i32, (sign * next_c) as i32);
    numbers.knot((start + h) as u16, y as i16, m as i32, c as i32);
    numbers.knot((start + 2 * h) as u16, next_y as i16, next_m as i32, next_c as i32);
    Some(numbers)
}

/// Three knots on gaps of this width, alike on both sides of the middle, with the outer slopes and curvatures
/// at their limits and one of the two ordinates at its own, each with the sign that is given. The middle has
/// slope 0, and the ordinates are so far apart that the one equation left asks for a small curvature there.
pub fn largest_on(gap: u16, ordinate: i128, slope: i128, curvature: i128) -> Numbers {
    let (h, highest) = (i128::from(gap), i128::from(ORDINATE_LIMIT));
    let (m, c) = (slope * i128::from(CARD_NUMBER_LIMIT), curvature * i128::from(CARD_NUMBER_LIMIT));
    // 20D − 8m′h + (M′ − 3M)h² is 0.
    let rise = reference::nearest_even(8 * m * h - c * h * h, 20 * 4096).clamp(-2 * highest, 2 * highest);
    let middle_c = reference::nearest_even(20 * 4096 * rise - 8 * m * h + c * h * h, 3 * h * h);
    let below = ordinate * highest - rise;
    let y = if below.abs() <= highest { below } else { ordinate * highest };
    let sheet = Sheet { minutes: vec![], ordinates: vec![] };
    let mut numbers = Numbers { kind: Kind::Quintic, sheet, slopes: vec![], curvatures: vec![], left: 1, right: 1 };
    numbers.knot(9, (y + rise) as i16, -m as i32, c as i32);
    numbers.knot(9 + gap, y as i16, 0, middle_c as i32);
    numbers.knot(9 + 2 * gap, (y + rise) as i16, m as i32, c as i32);
    numbers
}

/// The next knot's slope and curvature so that neither order jumps at this one, as near as whole numbers go.
fn carried_on(before: Knot, knot: Knot, x: i128, y: i128) -> (i128, i128) {
    let h = x - knot.x;
    let left = reference::left_side(before, knot);
    let p = knot.x - before.x;
    // 20D − 12mh − 8m′h − 3Mh² + M′h² = third, −30D + (16m+14m′)h + (3M−2M′)h² = fourth; third and fourth cleared by p alone.
    let d = 4096 * (y - knot.y);
    let third = reference::nearest_even(left.third * h.pow(3), p.pow(3)) - 20 * d + 12 * knot.m * h + 3 * knot.c * h * h;
    let fourth = reference::nearest_even(left.fourth * h.pow(4), p.pow(4)) + 30 * d - 16 * knot.m * h - 3 * knot.c * h * h;
    let m = reference::nearest_even(-(fourth + 2 * third), 2 * h);
    (m, reference::nearest_even(third + 8 * m * h, h * h))
}

/// A card carried on from two knots with any numbers, to four or five knots: large numbers in an accepted card.
pub fn carried(random: &mut Random, n: usize) -> Option<Numbers> {
    let (ordinate, card) = (i64::from(ORDINATE_LIMIT), i64::from(CARD_NUMBER_LIMIT));
    let mut sheet = sheet(random, n);
    let share = random.pick(&[1, 4, 64, 1024]);
    let mut knots: Vec<Knot> = Vec::new();
    for i in 0..n {
        let x = i128::from(sheet.minutes[i]);
        let y = i128::from(random.within(-ordinate / share, ordinate / share));
        let (m, c) = if i < 2 {
            (random.within(-card / share, card / share).into(), random.within(-card / share, card / share).into())
        } else {
            carried_on(knots[i - 2], knots[i - 1], x, y)
        };
        if m.abs() > card.into() || c.abs() > card.into() {
            return None;
        }
        knots.push(Knot { x, y, m, c });
    }
    sheet.ordinates = knots.iter().map(|knot| knot.y as i16).collect();
    let slopes = knots.iter().map(|knot| knot.m as i32).collect();
    let curvatures = knots.iter().map(|knot| knot.c as i32).collect();
    Some(Numbers { kind: Kind::Quintic, sheet, slopes, curvatures, left: 1, right: 1 })
}

/// Two knots with these numbers, and the curve carried on from them to a third, where it keeps to its limits.
fn carried_from(left: Knot, right: Knot, x: i128, y: i128) -> Option<Numbers> {
    let (m, c) = carried_on(left, right, x, y);
    let third = Knot { x, y, m, c };
    let (ordinate, card) = (i128::from(ORDINATE_LIMIT), i128::from(CARD_NUMBER_LIMIT));
    let sheet = Sheet { minutes: vec![], ordinates: vec![] };
    let mut numbers = Numbers { kind: Kind::Quintic, sheet, slopes: vec![], curvatures: vec![], left: 1, right: 1 };
    for knot in [left, right, third] {
        if knot.y.abs() > ordinate || knot.m.abs() > card || knot.c.abs() > card {
            return None;
        }
        numbers.knot(knot.x as u16, knot.y as i16, knot.m as i32, knot.c as i32);
    }
    Some(numbers)
}

/// Three knots of which the first gap's curve is alike on both sides of the gap's middle, turned over there:
/// what it does above its knots it does below them.
pub fn turned_over_in_a_gap(random: &mut Random) -> Option<Numbers> {
    let share = random.pick(&[1, 8, 64, 512, 4096]);
    let mut large = |limit: i64| i128::from(random.within(-limit / share, limit / share));
    let (y, rise, m, c) = (large(ORDINATE_LIMIT.into()), large(2000), large(CARD_NUMBER_LIMIT.into()), large(CARD_NUMBER_LIMIT.into()));
    let widest = random.pick(&[2, 4, 12, WIDEST_GAP.into()]);
    let (h, next) = (random.within(1, widest), random.within(1, widest));
    let start = random.pick(&[0, 700, i64::from(u16::MAX) - h - next]);
    let left = Knot { x: start.into(), y, m, c };
    let right = Knot { x: (start + h).into(), y: y + rise, m, c: -c };
    carried_from(left, right, (start + h + next).into(), y + i128::from(random.within(-40, 40)))
}

/// Three knots of which the first gap's curve goes as far from its knots as the limits of slopes and
/// curvatures let it, upwards or downwards. The curve carried on keeps to them on a gap of 2 with a small
/// fall or rise.
pub fn furthest_from_its_knots(random: &mut Random) -> Option<Numbers> {
    let sign = random.pick(&[1, -1]);
    let (y, limit) = (random.pick(&[i128::from(ORDINATE_LIMIT), 0, -i128::from(ORDINATE_LIMIT)]), sign * i128::from(CARD_NUMBER_LIMIT));
    let h = i128::from(random.pick(&[WIDEST_GAP, WIDEST_GAP, WIDEST_GAP - 1, WIDEST_GAP / 2]));
    let left = Knot { x: 100, y, m: limit, c: limit };
    let right = Knot { x: 100 + h, y, m: -limit, c: limit };
    carried_from(left, right, 100 + h + 2, y + sign * i128::from(random.within(-80, 20)))
}

/// A card on gaps and ordinates that are alike on both sides of its middle, turned over there or not, fitted
/// between free ends: its gaps swing in pairs.
pub fn mirrored(random: &mut Random, n: usize) -> Option<Numbers> {
    let turned = random.once_in(2);
    let mut gaps = gaps(random, n - 1);
    let steep = random.pick(&[2, 30, 400]);
    let mut ordinates: Vec<i16> = (0..n).map(|_| random.within(-steep, steep) as i16).collect();
    for i in 0..n / 2 {
        ordinates[n - 1 - i] = if turned { -ordinates[i] } else { ordinates[i] };
        gaps[n - 2 - i] = gaps[i];
    }
    if turned && n % 2 == 1 {
        ordinates[n / 2] = 0;
    }
    let mut minutes = vec![random.within(0, 1000) as u16];
    for i in 1..n {
        minutes.push(minutes[i - 1] + gaps[i - 1]);
    }
    let (mut slopes, mut curvatures) = (vec![0; n], vec![0; n]);
    reference::fit_ends(&minutes, &ordinates, &mut slopes, &mut curvatures, FREE, FREE).ok()?;
    Some(Numbers { kind: Kind::Quintic, sheet: Sheet { minutes, ordinates }, slopes, curvatures, left: 0, right: 0 })
}

/// Three knots at even minutes on a parabola, which has a whole number or a half at every minute.
pub fn parabola(random: &mut Random) -> Numbers {
    let (start, tilt, bend) = (random.within(-9, 9), random.within(-12, 12), random.within(-4, 4));
    let mut x = 0;
    let sheet = Sheet { minutes: vec![], ordinates: vec![] };
    let (left, right) = (random.below(3) as u16, random.below(3) as u16);
    let mut numbers = Numbers { kind: Kind::Quintic, sheet, slopes: vec![], curvatures: vec![], left, right };
    for _ in 0..3 {
        numbers.knot(x as u16, (start + tilt * x + bend * x * x / 2) as i16, (4096 * (tilt + bend * x)) as i32, (4096 * bend) as i32);
        x += random.pick(&[2, 4, 6]);
    }
    numbers
}

/// Steps one slope or curvature of an accepted card away until the card is refused: the last card accepted and the
/// first refused.
pub fn about_the_allowance(numbers: &Numbers, place: usize, slope: bool, step: i32) -> (Numbers, Numbers) {
    let mut within = numbers.clone();
    loop {
        let mut past = within.clone();
        let number = if slope { &mut past.slopes[place] } else { &mut past.curvatures[place] };
        *number += step;
        if !past.accepted() {
            return (within, past);
        }
        within = past;
    }
}

/// A sheet with two ends that the reference fits.
pub fn fitted_ends(random: &mut Random, n: usize, left: u16, right: u16) -> (Sheet, [End; 2]) {
    loop {
        let sheet = sheet(random, n);
        let ends = [left, right].map(|code| end(random, code, &[0.0]));
        let (mut slopes, mut curvatures) = (vec![0; n], vec![0; n]);
        if reference::fit_ends(&sheet.minutes, &sheet.ordinates, &mut slopes, &mut curvatures, ends[0], ends[1]).is_ok() {
            return (sheet, ends);
        }
    }
}

/// Which given number of which end is turned, and which number of the fit is looked at.
#[derive(Clone, Copy)]
pub struct Turn {
    pub right: bool,
    pub slope: bool,
    pub place: usize,
    pub row: usize,
}

/// The ends with the one given number made this.
pub fn turned(mut ends: [End; 2], turn: Turn, given: f64) -> [End; 2] {
    let end = &mut ends[usize::from(turn.right)];
    *(if turn.slope { &mut end.slope } else { &mut end.curvature }) = given;
    ends
}

/// The last of the given numbers at which the fit's number still rounds as it does now, its neighbour rounding otherwise: there
/// 4096·u stands at a half, so that a single operation rounded in another way shows in the card.
pub fn about_a_half(sheet: &Sheet, ends: [End; 2], turn: Turn) -> Option<f64> {
    let rounded = |given: f64| {
        let [left, right] = turned(ends, turn, given);
        let pairs = reference::eliminate(&sheet.minutes, &sheet.ordinates, left, right).ok()?;
        Some(reference::card_units(pairs[turn.place][turn.row]))
    };
    let end = ends[usize::from(turn.right)];
    let mut same = if turn.slope { end.slope } else { end.curvature };
    let now = rounded(same)?;
    let mut other = [1.0 / 4096.0, 1.0 / 64.0, 1.0].iter().map(|step| same + step).find(|&given| rounded(given) != Some(now))?;
    loop {
        let middle = same + (other - same) / 2.0;
        if middle <= same || middle >= other {
            return Some(same);
        }
        if rounded(middle) == Some(now) {
            same = middle;
        } else {
            other = middle;
        }
    }
}

/// A slope for each knot of a sheet, in card units and within the limit: those of a smooth curve through it,
/// near these, the chords' between a knot's neighbours, none, any at all, or at the limit.
pub fn slopes(random: &mut Random, sheet: &Sheet) -> Vec<i32> {
    let n = sheet.minutes.len();
    if n < 2 {
        return vec![0; n];
    }
    let limit = i128::from(CARD_NUMBER_LIMIT);
    let smooth: Vec<i128> = match reference::eliminate(&sheet.minutes, &sheet.ordinates, FREE, FREE) {
        Ok(pairs) => pairs.iter().map(|pair| reference::card_units(pair[0])).collect(),
        Err(_) => vec![0; n],
    };
    let chord = |i: usize| {
        let (before, next) = (i.saturating_sub(1), (i + 1).min(n - 1));
        let rise = i128::from(sheet.ordinates[next]) - i128::from(sheet.ordinates[before]);
        4096 * rise / i128::from(sheet.minutes[next] - sheet.minutes[before])
    };
    let shape = random.below(10);
    let (near, share) = (random.pick(&[1, 3, 50, 4_000]), random.pick(&[1, 16, 256]));
    let one = |i: usize, random: &mut Random| match shape {
        0 => chord(i) + i128::from(random.within(-near, near)),
        1 => 0,
        2 => random.within(-1_048_576 / share, 1_048_576 / share).into(),
        3 => random.pick(&[limit, -limit, limit - 1, 0]),
        4 | 5 => smooth[i],
        _ => smooth[i] + i128::from(random.within(-near, near)),
    };
    (0..n).map(|i| one(i, random).clamp(-limit, limit) as i32).collect()
}

/// Makes one slope one at the limit, one past it, or any at all.
pub fn spoil_a_slope(random: &mut Random, slopes: &mut [i32]) {
    let limit = CARD_NUMBER_LIMIT;
    if !slopes.is_empty() {
        slopes[random.below(slopes.len())] =
            random.pick(&[limit, -limit, limit + 1, -limit - 1, limit + 1, -limit - 1, i32::MAX, i32::MIN]);
    }
}

/// A card of the second kind whose curvatures the reference has fitted to these slopes, where it is not
/// refused.
pub fn sloped(sheet: Sheet, slopes: Vec<i32>) -> Option<Numbers> {
    let mut curvatures = vec![0; slopes.len()];
    let fit = reference::fit_slopes(&sheet.minutes, &sheet.ordinates, &slopes, &mut curvatures);
    fit.is_ok().then_some(Numbers { kind: Kind::Sloped, sheet, slopes, curvatures, left: 0, right: 0 })
}

/// The same of n knots, on a sheet with slopes of any shape.
pub fn fitted_to_slopes(random: &mut Random, n: usize) -> Numbers {
    loop {
        let sheet = sheet(random, n);
        let slopes = slopes(random, &sheet);
        if let Some(numbers) = sloped(sheet, slopes) {
            return numbers;
        }
    }
}

/// The same at these minutes.
pub fn fitted_to_slopes_at(random: &mut Random, minutes: &[u16]) -> Numbers {
    loop {
        let sheet = Sheet { minutes: minutes.to_vec(), ordinates: ordinates(random, minutes) };
        let slopes = slopes(random, &sheet);
        if let Some(numbers) = sloped(sheet, slopes) {
            return numbers;
        }
    }
}

/// Document 01's card of Table 3 with the head of the second kind: its slopes taken as given, its curvatures
/// are theirs.
pub fn table_3_sloped() -> Numbers {
    Numbers { kind: Kind::Sloped, ..table_3() }
}

/// The curvatures in card units, rounded or not, that the elimination gives a small sheet with these slopes.
fn eliminated(sheet: &Sheet, slopes: &[i32]) -> Option<Vec<f64>> {
    let plain = reference::eliminate_slopes(&sheet.minutes, &sheet.ordinates, slopes).ok()?;
    Some(plain.into_iter().map(|u| 4096.0 * u).collect())
}

/// A sheet of few knots on narrow gaps with a small slope for each.
fn small_with_slopes(random: &mut Random, widest: i64) -> (Sheet, Vec<i32>) {
    let n = random.within(3, 6) as usize;
    let mut minutes = vec![random.within(0, 900) as u16];
    for i in 1..n {
        minutes.push(minutes[i - 1] + random.within(1, widest) as u16);
    }
    let ordinates = (0..n).map(|_| random.within(-60, 60) as i16).collect();
    let slopes = (0..n).map(|_| random.within(-100_000, 100_000) as i32).collect();
    (Sheet { minutes, ordinates }, slopes)
}

/// Such a sheet of which one curvature is at a half as far as binary64 goes, so that a single operation
/// rounded in another way shows in the card; or none of this draw.
pub fn slopes_at_a_half(random: &mut Random) -> Option<(Sheet, Vec<i32>)> {
    let (sheet, slopes) = small_with_slopes(random, 7);
    let at_a_half = |u: &f64| ((u - u.floor()) - 0.5).abs() < 1e-8;
    eliminated(&sheet, &slopes)?.iter().any(at_a_half).then_some((sheet, slopes))
}

/// Such a sheet, scaled and one of its slopes then stepped until the largest of its curvatures passes the
/// limit: the slopes just before and just behind.
pub fn slopes_about_the_limit(random: &mut Random) -> Option<(Sheet, [Vec<i32>; 2])> {
    let (mut sheet, mut slopes) = small_with_slopes(random, 12);
    let limit = f64::from(CARD_NUMBER_LIMIT);
    let largest = |sheet: &Sheet, slopes: &[i32]| {
        Some(eliminated(sheet, slopes)?.iter().fold(0.0, |most: f64, u| most.max(u.abs().round_ties_even())))
    };
    let share = limit / largest(&sheet, &slopes)?;
    sheet.ordinates.iter_mut().for_each(|y| *y = (f64::from(*y) * share) as i16);
    slopes.iter_mut().for_each(|m| *m = (f64::from(*m) * share) as i32);
    let (place, step) = (random.below(slopes.len()), random.pick(&[1, -1, 2, -3]));
    let mut within = largest(&sheet, &slopes)? <= limit;
    for _ in 0..2_000 {
        let before = slopes.clone();
        slopes[place] += step;
        let now = largest(&sheet, &slopes)? <= limit;
        if now != within {
            return Some((sheet, [before, slopes]));
        }
        within = now;
    }
    None
}
