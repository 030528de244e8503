//! What is timed: cards of 64 knots on gaps of an hour and on gaps of 20 to 60 minutes, the latter with given
//! slopes and with a jump too, logs, sheets with holes, tables of the pre-heater, and books of fourteen rooms.

use independent::curves::{self, Numbers, Sheet};
use independent::random::Random;
use independent::reference;

pub const KNOTS: usize = 64;
/// Values of the pre-heater's tables, and parts to a step.
pub const VALUES: usize = 20;
pub const PARTS: u16 = 60;
pub const ROOMS: u16 = 14;
/// Cards, sheets and books of each kind.
pub const INPUTS: usize = 16;
/// Logs: as many as no branch predictor has learnt, since a log is averaged once.
pub const LOGS: usize = 4096;

/// Cards on gaps of one kind, their bytes, and a minute of each.
pub struct Cards {
    pub numbers: Vec<Numbers>,
    pub bytes: Vec<Vec<u8>>,
    pub minutes: Vec<u16>,
}

pub struct Inputs {
    pub hours: Cards,
    pub mixed: Cards,
    pub sloped: Cards,
    pub jumping: Cards,
    pub logs: Vec<Vec<u8>>,
    pub sheets: Vec<Sheet>,
    pub heats: Vec<Vec<i16>>,
    pub books: Vec<Vec<u8>>,
    pub short_card: Vec<u8>,
}

/// A card of free ends on such gaps, whose knots the fit without ends accepts too.
fn card(random: &mut Random, gap: impl Fn(&mut Random) -> u16) -> Numbers {
    loop {
        let mut minutes = vec![random.within(0, 500) as u16];
        while minutes.len() < KNOTS {
            minutes.push(minutes[minutes.len() - 1] + gap(random));
        }
        let card = curves::fitted_at(random, &minutes, 0, 0);
        if reference::fit(&card.sheet.minutes, &card.sheet.ordinates, &mut [0; KNOTS], &mut [0; KNOTS]).is_ok() {
            return card;
        }
    }
}

/// The same knots with slopes that were measured: a little off the fit's.
fn with_slopes(random: &mut Random, card: &Numbers) -> Numbers {
    let slopes = card.slopes.iter().map(|slope| slope + random.within(-400, 400) as i32).collect();
    curves::sloped(card.sheet.clone(), slopes).expect("slopes near a fit's are fitted to")
}

/// The same card with its last curvature so far off that it is refused for it.
fn with_a_jump(card: &Numbers) -> Numbers {
    let (_, past) = curves::about_the_allowance(card, KNOTS - 1, false, 1);
    let place = KNOTS as u32 - 1;
    assert_eq!(reference::check(&past.bytes()).err(), Some(reference::Refusal { number: 10, place }));
    past
}

fn cards(random: &mut Random, gap: impl Fn(&mut Random) -> u16) -> Cards {
    let numbers = (0..INPUTS).map(|_| card(random, &gap)).collect();
    cards_of(random, numbers)
}

fn cards_of(random: &mut Random, numbers: Vec<Numbers>) -> Cards {
    let bytes = numbers.iter().map(Numbers::bytes).collect();
    let minutes = numbers.iter().map(|card| first_and_count(card).0 + random.below(first_and_count(card).1) as u16).collect();
    Cards { numbers, bytes, minutes }
}

/// The first minute of a card, and how many it has.
pub fn first_and_count(card: &Numbers) -> (u16, usize) {
    let (first, last) = (card.sheet.minutes[0], card.sheet.minutes[KNOTS - 1]);
    (first, usize::from(last - first) + 1)
}

/// A sheet with some fifth of its knots holes that the reference mends.
fn sheet_with_holes(random: &mut Random) -> Sheet {
    loop {
        let mut sheet = curves::fitted(random, KNOTS, 0, 0).sheet;
        for ordinate in &mut sheet.ordinates[1..KNOTS - 1] {
            if random.once_in(5) {
                *ordinate = reference::HOLE;
            }
        }
        let (mut ordinates, mut slopes, mut curvatures) = (sheet.ordinates.clone(), [0; KNOTS], [0; KNOTS]);
        let mut changes = [reference::Change { place: 0, old: 0, new: 0 }; KNOTS];
        if reference::mend(&sheet.minutes, &mut ordinates, &mut slopes, &mut curvatures, &mut changes).is_ok_and(|count| count > 0) {
            return sheet;
        }
    }
}

/// A table of the pre-heater that goes up and down by some percents from value to value.
fn heats(random: &mut Random) -> Vec<i16> {
    let mut value = random.within(2000, 8000);
    (0..VALUES)
        .map(|_| {
            value = (value + random.within(-600, 600)).clamp(0, 10_000);
            value as i16
        })
        .collect()
}

/// A buffer as long as a book may be, with the rooms 1 to 14 and their cards.
fn hall(cards: &[Vec<u8>], first: usize) -> Vec<u8> {
    let card = |room: u16| cards[(first + usize::from(room)) % cards.len()].clone();
    let mut book = reference::book_bytes(&(1..=ROOMS).map(|room| (room, card(room))).collect());
    book.resize(reference::LONGEST_BOOK, 0);
    book
}

pub fn inputs(random: &mut Random) -> Inputs {
    let hours = cards(random, |_| 60);
    let mixed = cards(random, |random| random.within(20, 60) as u16);
    let byte = |random: &mut Random| if random.once_in(10) { 255 } else { random.within(0, 200) as u8 };
    let logs = (0..LOGS).map(|_| (0..60).map(|_| byte(random)).collect()).collect();
    let sheets = (0..INPUTS).map(|_| sheet_with_holes(random)).collect();
    let books = (0..INPUTS).map(|first| hall(&mixed.bytes, first)).collect();
    let short_card = curves::fitted(random, 3, 0, 0).bytes();
    let given = mixed.numbers.iter().map(|card| with_slopes(random, card)).collect();
    let sloped = cards_of(random, given);
    let jumping = cards_of(random, mixed.numbers.iter().map(with_a_jump).collect());
    let heats = (0..INPUTS).map(|_| heats(random)).collect();
    Inputs { hours, mixed, sloped, jumping, logs, sheets, heats, books, short_card }
}
