//! Tables of the pre-heater to compare on, in groups; the same in every run. Each table's cubic is also held
//! against what makes it the natural one, without the library and without how it was solved.

use crate::compare::{self, Tally};
use crate::random::Random;
use crate::reference::{self, Cubic, FEWEST_PARTS, FEWEST_VALUES, MOST_PARTS, MOST_VALUES, ORDINATE_LIMIT};

/// Document 001's example (Table 2), times ten.
pub const EXAMPLE: [i16; 10] = [2440, 2210, 2080, 2080, 2115, 2160, 2190, 2210, 2215, 2200];

/// The count of parts at which the last value stands.
fn last_count(values: usize, parts: u16) -> u16 {
    parts * (values as u16 - 1)
}

/// The continuity equations, every one of them exactly, and 0 at both ends; and what they come from: on each
/// step the cubic goes from value to value, and slope and second derivative go on into the next step.
fn natural(values: &[i16], cubic: &Cubic) {
    let (n, u) = (values.len(), &cubic.unknowns);
    let y: Vec<i128> = values.iter().map(|&value| value.into()).collect();
    assert!(cubic.scale > 0, "{values:?}");
    assert_eq!((u.len(), u[0], u[n - 1]), (n, 0, 0), "{values:?}");
    for i in 1..n - 1 {
        let second_difference = y[i + 1] - 2 * y[i] + y[i - 1];
        assert_eq!(u[i + 1] + 4 * u[i] + u[i - 1], cubic.scale * second_difference, "place {i} of {values:?}");
    }
    let steps: Vec<[i128; 4]> = (0..n - 1).map(|step| cubic.powers(step)).collect();
    for (step, &[a, b, c, d]) in steps.iter().enumerate() {
        assert_eq!((a, a + b + c + d), (cubic.scale * y[step], cubic.scale * y[step + 1]), "step {step} of {values:?}");
        let (slope, twice_bent) = (b + 2 * c + 3 * d, 2 * c + 6 * d);
        match steps.get(step + 1) {
            Some(next) => assert_eq!((slope, twice_bent), (next[1], 2 * next[2]), "behind step {step} of {values:?}"),
            None => assert_eq!(twice_bent, 0, "{values:?}"),
        }
    }
    assert_eq!(steps[0][2], 0, "{values:?}");
}

/// The cubic of a sound table, which is the natural one and has the table's own values at whole steps.
fn cubic_of(values: &[i16]) -> Cubic {
    let cubic = Cubic::of(values);
    natural(values, &cubic);
    for parts in [2, 7, 60] {
        for (place, &value) in values.iter().enumerate() {
            assert_eq!(cubic.at(parts, parts * place as u16), Ok(value.into()), "{values:?}");
        }
    }
    cubic
}

/// A table at every count of parts, one count past the last, and the last count of all.
fn every_count(tally: &mut Tally, values: &[i16], parts: u16) {
    let cubic = cubic_of(values);
    for count in (0..=last_count(values.len(), parts) + 1).chain([u16::MAX]) {
        compare::preheat_of(tally, &cubic, values, parts, count);
    }
}

fn turned_over(values: &[i16]) -> Vec<i16> {
    values.iter().map(|value| -value).collect()
}

/// From limit to limit and back, which has the largest unknowns.
fn alternating(n: usize) -> Vec<i16> {
    (0..n).map(|place| if place % 2 == 0 { ORDINATE_LIMIT } else { -ORDINATE_LIMIT }).collect()
}

/// One value of this size, all others 0.
fn alone(n: usize, place: usize, value: i16) -> Vec<i16> {
    let mut values = vec![0; n];
    values[place] = value;
    values
}

/// The table whose value at a count is the highest that there is: each value at its limit, with the sign of
/// what it weighs there.
pub(crate) fn highest(n: usize, parts: u16, count: u16) -> Vec<i16> {
    let weight = |place| Cubic::of(&alone(n, place, 1)).exact(parts, count).0;
    (0..n).map(|place| if weight(place) < 0 { -ORDINATE_LIMIT } else { ORDINATE_LIMIT }).collect()
}

fn any_parts(random: &mut Random) -> u16 {
    random.within(FEWEST_PARTS.into(), MOST_PARTS.into()) as u16
}

/// Tables of many sorts: wide, narrow, at the limits, beside one another, on a line.
fn any_table(random: &mut Random, n: usize) -> Vec<i16> {
    let limit = i64::from(ORDINATE_LIMIT);
    let (sort, step) = (random.below(6), random.within(-1000, 1000));
    let mut value = random.within(-limit / 2, limit / 2);
    let next = |place: usize| match sort {
        0 => random.within(-limit, limit) as i16,
        1 => random.within(-4, 4) as i16,
        2 => random.pick(&[-ORDINATE_LIMIT, ORDINATE_LIMIT]),
        3 => random.pick(&[0, 0, 0, 0, 0, 1, -1, ORDINATE_LIMIT, -ORDINATE_LIMIT]),
        4 => {
            value = (value + random.within(-400, 400)).clamp(-limit, limit);
            value as i16
        }
        _ => (value + step * place as i64).clamp(-limit, limit) as i16,
    };
    (0..n).map(next).collect()
}

/// Document 001's example, the largest unknowns, each value alone, the highest value at many counts, every
/// number of parts and tables of all sorts.
pub fn tables(tally: &mut Tally, random: &mut Random) {
    for parts in [2, 3, 7, 10, 30, 59, 60] {
        every_count(tally, &EXAMPLE, parts);
        every_count(tally, &EXAMPLE[..9], parts);
    }
    for n in FEWEST_VALUES..=MOST_VALUES {
        let values = if n % 2 == 0 { alternating(n) } else { turned_over(&alternating(n)) };
        for parts in [2, 59, 60] {
            every_count(tally, &values, parts);
        }
        for place in 0..n {
            every_count(tally, &alone(n, place, random.pick(&[-ORDINATE_LIMIT, ORDINATE_LIMIT])), 2 + (place % 4) as u16);
        }
        for step in 0..n as u16 - 1 {
            let parts = any_parts(random);
            for (parts, count) in [(2, 2 * step + 1), (parts, parts * step + random.below(parts.into()) as u16)] {
                let values = highest(n, parts, count);
                for values in [turned_over(&values), values] {
                    let cubic = cubic_of(&values);
                    for count in count.saturating_sub(1)..=count + 1 {
                        compare::preheat_of(tally, &cubic, &values, parts, count);
                    }
                }
            }
        }
    }
    for values in [turned_over(&alternating(MOST_VALUES)), alternating(FEWEST_VALUES)] {
        for parts in [2, 59, 60] {
            every_count(tally, &values, parts);
        }
    }
    for parts in FEWEST_PARTS..=MOST_PARTS {
        let n = random.within(3, 20) as usize;
        every_count(tally, &any_table(random, n), parts);
    }
    for _ in 0..2_000 {
        let n = random.within(3, 20) as usize;
        let values = any_table(random, n);
        let cubic = cubic_of(&values);
        for _ in 0..10 {
            let parts = any_parts(random);
            compare::preheat_of(tally, &cubic, &values, parts, random.below(usize::from(last_count(n, parts)) + 1) as u16);
        }
    }
}

/// How many exact halves were met: above 0 and below, with the even number under the half and over it.
#[derive(Debug, Default)]
struct Halves([[usize; 2]; 2]);

impl Halves {
    /// Whether the exact value at a count is a half; it is counted then.
    fn met(&mut self, cubic: &Cubic, parts: u16, count: u16) -> bool {
        let (numerator, denominator) = cubic.exact(parts, count);
        let half = 2 * numerator.rem_euclid(denominator) == denominator;
        if half {
            let under = numerator.div_euclid(denominator);
            self.0[usize::from(under < 0)][under.rem_euclid(2) as usize] += 1;
        }
        half
    }

    /// How many of that sort of which the fewest were met.
    fn fewest(&self) -> usize {
        self.0.iter().flatten().copied().min().unwrap_or(0)
    }

    fn all(&self, times: usize, of: &str) {
        assert!(self.fewest() >= times, "too few halves of {of}: {self:?}");
    }
}

/// A table whose unknowns are whole numbers, so that the middle of a step is a whole number of eighths and
/// often a half: the unknowns are drawn, and the values follow from the equations. None where a value is
/// beyond its limit.
fn of_whole_unknowns(random: &mut Random, n: usize) -> Option<Vec<i16>> {
    let most = random.pick(&[1, 3, 20, 300]);
    let mut unknowns: Vec<i64> = (0..n).map(|_| random.within(-most, most)).collect();
    (unknowns[0], unknowns[n - 1]) = (0, 0);
    let first = random.within(-300, 300);
    let mut values = vec![first, first + random.within(-3 * most, 3 * most)];
    for i in 1..n - 1 {
        let second_difference = unknowns[i - 1] + 4 * unknowns[i] + unknowns[i + 1];
        values.push(second_difference + 2 * values[i] - values[i - 1]);
    }
    let limit = i64::from(ORDINATE_LIMIT);
    values.iter().map(|&value| if value.abs() <= limit { Some(value as i16) } else { None }).collect()
}

/// A table of an even number of values that is turned over by reading it from behind, but for a shift by an
/// odd number: in the middle its cubic is half of that, whatever its unknowns are.
fn about_its_middle(random: &mut Random, n: usize) -> Vec<i16> {
    let shift = 2 * random.within(-30, 30) + 1;
    let most = random.pick(&[3, 200, 19_900]);
    let front: Vec<i64> = (0..n / 2).map(|_| random.within(-most, most)).collect();
    let behind = front.iter().rev().map(|value| shift - value);
    front.iter().copied().chain(behind).map(|value| value as i16).collect()
}

/// A table at a count where it is a half; and with each of its values one more and one less, which moves the
/// cubic there by the less the further that value is, in the end by some 10^-11.
fn about_a_half(tally: &mut Tally, cubic: &Cubic, values: &[i16], parts: u16, count: u16) {
    compare::preheat_of(tally, cubic, values, parts, count);
    for place in 0..values.len() {
        for change in [-1, 1] {
            let mut changed = values.to_vec();
            changed[place] += change;
            compare::preheat(tally, &changed, parts, count);
        }
    }
}

/// What a number is to be multiplied with to leave 1 over multiples of another, where there is such.
fn inverse(number: i128, of: i128) -> Option<i128> {
    let (mut rest, mut next) = ((number.rem_euclid(of), 1), (of, 0));
    while next.0 != 0 {
        let many = rest.0 / next.0;
        (rest, next) = (next, (rest.0 - many * next.0, rest.1 - many * next.1));
    }
    (rest.0 == 1).then(|| rest.1.rem_euclid(of))
}

/// A table whose exact value t parts behind the first value is beside a half by `off` halves of a unit of its
/// numerator, 0 being the half itself. On the first step the numerator has the first two values and the first
/// inner unknown, and nothing else: that unknown follows over multiples of scale·q², and the values follow
/// from it, since the second differences weigh less and less in it, the last one 1.
fn beside_a_half(random: &mut Random, n: usize, parts: u16, t: i128, off: i128) -> Option<Vec<i16>> {
    let (q, scale) = (i128::from(parts), Cubic::of(&vec![0; n]).scale);
    let (s, denominator, once) = (q - t, scale * q.pow(3), scale * q.pow(2));
    let wanted = (denominator + off) / 2;
    let weight = t.pow(3) - t * q.pow(2);
    let over = (wanted * inverse(weight, once)?).rem_euclid(once);
    let unknown = if 2 * over > once { over - once } else { over } + once * i128::from(random.within(-1, 1));
    let left = (wanted - weight * unknown) / once;
    let second = i128::from(random.within(-3000, 3000));
    let first_over_q = ((left - t * second) * inverse(s, q)?).rem_euclid(q);
    // What a second difference of 1 at a place brings to the unknown.
    let brings = |place: usize| Cubic::of(&(0..n).map(|i| i.saturating_sub(place) as i16).collect::<Vec<i16>>()).unknowns[1];
    let mut rest = unknown;
    let mut bends: Vec<i128> = vec![0];
    for place in 1..n - 1 {
        let brought = brings(place);
        let bend = brought.signum() * reference::nearest_even(rest, brought.abs());
        rest -= bend * brought;
        bends.push(bend);
    }
    assert_eq!(rest, 0);
    // The first value so that the table goes on nearly level behind the second.
    let level = second + bends[1];
    let mut values = vec![level - (level - first_over_q).rem_euclid(q), second];
    for place in 1..n - 1 {
        values.push(bends[place] + 2 * values[place] - values[place - 1]);
    }
    let limit = i128::from(ORDINATE_LIMIT);
    let values: Option<Vec<i16>> = values.iter().map(|&value| (value.abs() <= limit).then_some(value as i16)).collect();
    if let Some(values) = &values {
        let (numerator, under) = Cubic::of(values).exact(parts, t as u16);
        assert_eq!((2 * numerator - off).rem_euclid(2 * under), under, "{values:?}, {t} of {q}");
    }
    values
}

/// Values as near to a half as whole numbers get, on either side of it, for every number of values and of
/// parts: on the first step, and read from behind on the last.
fn next_to_a_half(tally: &mut Tally, random: &mut Random) {
    let mut met = 0;
    for n in FEWEST_VALUES..=MOST_VALUES {
        for parts in FEWEST_PARTS..=MOST_PARTS {
            let even = (Cubic::of(&vec![0; n]).scale * i128::from(parts)) % 2 == 0;
            for &off in if even { &[-2, 0, 2][..] } else { &[-1, 1] } {
                for t in [1, 1, random.within(1, i64::from(parts) - 1) as u16] {
                    let Some(mut values) = beside_a_half(random, n, parts, t.into(), off) else { continue };
                    met += 1;
                    compare::preheat(tally, &values, parts, t);
                    values.reverse();
                    natural(&values, &Cubic::of(&values));
                    compare::preheat(tally, &values, parts, last_count(n, parts) - t);
                }
            }
        }
    }
    assert!(met > 1_000, "too few tables next to a half: {met}");
}

/// Values at an exact half, of every number of values, and all about them.
pub fn at_a_half(tally: &mut Tally, random: &mut Random) {
    next_to_a_half(tally, random);
    let even_parts = [2, 2, 2, 4, 6, 8, 10, 16, 20, 32, 34, 58, 60];
    for n in FEWEST_VALUES..=MOST_VALUES {
        let mut halves = Halves::default();
        let mut drawn = 0;
        while drawn < 30 || (halves.fewest() < 2 && drawn < 1_000) {
            let Some(values) = of_whole_unknowns(random, n) else { continue };
            drawn += 1;
            let (cubic, parts) = (cubic_of(&values), random.pick(&even_parts));
            assert!(cubic.unknowns.iter().all(|unknown| unknown % cubic.scale == 0), "{values:?}");
            let met: Vec<u16> = (0..=last_count(n, parts)).filter(|&count| halves.met(&cubic, parts, count)).collect();
            for &count in met.iter().take(2).chain(met.iter().rev().take(1)) {
                about_a_half(tally, &cubic, &values, parts, count);
            }
        }
        halves.all(2, &format!("{n} values with whole unknowns"));
    }
    // Unknowns that are no whole numbers: in the middle of the middle step, and wherever three, four or five
    // small values happen to have one.
    let mut halves = Halves::default();
    for n in (4..=MOST_VALUES).step_by(2) {
        for _ in 0..20 {
            let (values, parts) = (about_its_middle(random, n), random.pick(&even_parts));
            let (cubic, count) = (cubic_of(&values), last_count(n, parts) / 2);
            assert!(halves.met(&cubic, parts, count), "{values:?}");
            about_a_half(tally, &cubic, &values, parts, count);
        }
    }
    halves.all(10, "tables about their middle");
    let mut halves = Halves::default();
    for turn in 0..3_000 {
        let (n, parts) = (3 + turn % 3, random.pick(&even_parts));
        let values: Vec<i16> = (0..n).map(|_| random.within(-40, 40) as i16).collect();
        let cubic = Cubic::of(&values);
        if cubic.unknowns.iter().any(|unknown| unknown % cubic.scale != 0) {
            for count in (0..=last_count(n, parts)).filter(|count| count % parts != 0) {
                if halves.met(&cubic, parts, count) {
                    natural(&values, &cubic);
                    about_a_half(tally, &cubic, &values, parts, count);
                }
            }
        }
    }
    halves.all(5, "few small values");
}

/// So many values, none, one or two of them beyond the limit.
fn spoilt(random: &mut Random, n: usize, times: usize) -> Vec<i16> {
    let mut values = any_table(random, n);
    for _ in 0..times.min(n) {
        values[random.below(n)] = random.pick(&[ORDINATE_LIMIT + 1, -ORDINATE_LIMIT - 1, i16::MAX, i16::MIN]);
    }
    values
}

/// Every number of values from none to more than 20 beside every sort of part count and count, sound values
/// and values beyond the limit, so that each two faults meet; each place with each number about the limit;
/// and numbers of which the low byte or the low two alone would pass.
pub fn refusals(tally: &mut Tally, random: &mut Random) {
    for n in 0..=MOST_VALUES + 2 {
        for parts in [0, 1, 2, 3, 59, 60, 61, u16::MAX] {
            let last = (n as u16).wrapping_sub(1).wrapping_mul(parts);
            for count in [0, 1, last.wrapping_sub(1), last, last.wrapping_add(1), u16::MAX] {
                for times in 0..3 {
                    compare::preheat(tally, &spoilt(random, n, times), parts, count);
                }
            }
        }
    }
    let limit = ORDINATE_LIMIT;
    for n in FEWEST_VALUES..=MOST_VALUES {
        for place in 0..n {
            for value in [limit - 1, limit, limit + 1, i16::MAX, 1 - limit, -limit, -limit - 1, i16::MIN + 1, i16::MIN] {
                let mut values = any_table(random, n);
                values[place] = value;
                let (parts, count) = (random.pick(&[0, 2, 10, 60, 61]), random.pick(&[0, 3, 4, 5, 2000]));
                compare::preheat(tally, &values, parts, count);
            }
            for other in 0..place {
                let mut values = any_table(random, n);
                (values[other], values[place]) = (random.pick(&[limit + 1, i16::MIN]), random.pick(&[-limit - 1, i16::MAX]));
                compare::preheat(tally, &values, random.pick(&[1, 2, 10, 60, 61]), random.pick(&[0, 3, 2000]));
            }
        }
        let values = any_table(random, n);
        for parts in FEWEST_PARTS..=MOST_PARTS {
            let last = last_count(n, parts);
            for count in [last - 1, last, last + 1, last + 256, random.next() as u16] {
                compare::preheat(tally, &values, parts, count);
            }
        }
    }
    for n in [23, 63, 64, 65, 66, 255, 256, 259, 276, 4096, 65_535, 65_536, 65_539, 65_556] {
        compare::preheat(tally, &vec![7; n], 10, 5);
        compare::preheat(tally, &vec![limit + 1; n], 61, u16::MAX);
    }
    for parts in (0..=130).chain((1..=255).map(|high| 256 * high + any_parts(random))) {
        for count in [0, 1, parts, 2 * (parts % 256)] {
            compare::preheat(tally, &EXAMPLE[..3], parts, count);
        }
    }
}

#[test]
fn the_reference_is_the_natural_cubic_of_these_tables() {
    let mut random = Random::new(10);
    for n in FEWEST_VALUES..=MOST_VALUES {
        for values in [alternating(n), alone(n, n / 2, ORDINATE_LIMIT), highest(n, 2, n as u16 - 1)] {
            cubic_of(&values);
        }
        for _ in 0..200 {
            cubic_of(&any_table(&mut random, n));
        }
    }
}

#[test]
fn no_value_lies_beyond_the_highest() {
    let mut most = 0;
    for n in FEWEST_VALUES..=MOST_VALUES {
        for parts in [2, 3, 26, 32, 59, 60] {
            for count in 0..=last_count(n, parts) {
                most = most.max(Cubic::of(&highest(n, parts, count)).at(parts, count).unwrap());
            }
        }
    }
    // In the middle of the middle step of twenty.
    assert_eq!(Cubic::of(&highest(20, 2, 19)).at(2, 19), Ok(most));
    assert_eq!(most, 30_981);
}
