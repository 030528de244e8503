//! One comparison for each function of the boundary: the same input to the library and to the reference, then answers and
//! lent lists held against each other. The lists stand inside longer ones that are filled with a pattern, so that a write
//! behind n, past the end or on a refusal shows.

use crate::boundary;
use crate::random::Random;
use crate::reference::{self, End, Refusal};
use std::collections::BTreeMap;
use std::fmt::Write as _;
use std::hint::black_box;

/// How many differences are printed; the rest are counted.
const SHOWN: u64 = 20;

/// Places of pattern before and behind each lent list.
const GUARD: usize = 5;

/// Of a part of the questions one in so many is compared.
const PART: usize = 10;

pub struct Tally {
    pub comparisons: u64,
    pub differences: u64,
    /// How often each number of refusal was the reference's answer, by the function that was called.
    pub met: BTreeMap<(&'static str, u32), u64>,
    /// Draws the questions that are compared, where it is a part of them.
    draws: Option<Random>,
}

impl Tally {
    /// Of all questions, or of a part of them that is drawn by the seed. The groups' own seeds are small: the
    /// draws have others.
    pub fn new(part: Option<u64>) -> Tally {
        Tally { comparisons: 0, differences: 0, met: BTreeMap::new(), draws: part.map(|seed| Random::new(!seed)) }
    }

    /// Whether the question that is next is compared.
    fn takes_the_next(&mut self) -> bool {
        self.draws.as_mut().map_or(true, |draws| draws.once_in(PART))
    }

    fn count<A: PartialEq + std::fmt::Debug>(
        &mut self,
        function: &'static str,
        number: u32,
        ours: A,
        wanted: A,
        lists_alike: bool,
        input: impl FnOnce() -> String,
    ) {
        self.comparisons += 1;
        *self.met.entry((function, number)).or_default() += 1;
        if ours == wanted && lists_alike {
            return;
        }
        self.differences += 1;
        if self.differences <= SHOWN {
            let lists = if lists_alike { "" } else { " (a lent list differs)" };
            println!("{function} {}\n  library   {ours:?}\n  reference {wanted:?}{lists}", input());
        }
    }
}

/// A list of a pattern; what is lent is its middle.
fn pattern<T>(length: usize, of: impl Fn(usize) -> T) -> Vec<T> {
    (0..length + 2 * GUARD).map(of).collect()
}

fn u16_pattern(length: usize) -> Vec<u16> {
    pattern(length, |i| 0xA500 + i as u16)
}

fn i16_pattern(length: usize) -> Vec<i16> {
    pattern(length, |i| -23_000 - (i % 9_000) as i16)
}

fn i32_pattern(length: usize) -> Vec<i32> {
    pattern(length, |i| 0x5A5A_0000 + i as i32)
}

fn u8_pattern(length: usize) -> Vec<u8> {
    pattern(length, |i| 0xA5 ^ i as u8)
}

fn change_pattern(length: usize) -> Vec<boundary::Change> {
    pattern(length, |i| boundary::Change { place: 0xA5A5_0000 + i as u32, old: 0x5A5A_0000 + i as i32, new: -0x5A5A_0000 - i as i32 })
}

/// What is handed in to be read and written, with a pattern around it.
fn within_a_pattern<T: Copy>(mut pattern: Vec<T>, given: &[T]) -> Vec<T> {
    lent(&mut pattern).copy_from_slice(given);
    pattern
}

fn lent<T>(list: &mut [T]) -> &mut [T] {
    let end = list.len() - GUARD;
    &mut list[GUARD..end]
}

/// Bytes as they are handed on in a message.
fn hex(bytes: &[u8]) -> String {
    bytes.iter().fold(String::new(), |mut text, byte| {
        let _ = write!(text, "{byte:02x}");
        text
    })
}

fn number<T>(answer: &Result<T, Refusal>) -> u32 {
    answer.as_ref().map_or_else(|refusal| refusal.number, |_| 0)
}

pub fn mean(tally: &mut Tally, first: u16, log: &[u8]) {
    if !tally.takes_the_next() {
        return;
    }
    let wanted = match reference::mean(first, log) {
        Ok(reference::Mean { minute, ordinate, good, faults }) => {
            boundary::Mean { minute: minute.into(), ordinate, good, faults, ..Default::default() }
        }
        Err(Refusal { number, place }) => boundary::Mean { number, place, ..Default::default() },
    };
    tally.count("mean", wanted.number, boundary::mean(first, log), wanted, true, || format!("from {first} of {}", hex(log)));
}

fn fitted(answer: &Result<(), Refusal>) -> boundary::Fitted {
    match *answer {
        Ok(()) => boundary::Fitted::default(),
        Err(Refusal { number, place }) => boundary::Fitted { number, place },
    }
}

/// The fit without ends, into lists of these lengths.
pub fn fit(tally: &mut Tally, minutes: &[u16], ordinates: &[i16], lengths: [usize; 2]) {
    if !tally.takes_the_next() {
        return;
    }
    let lists = lengths.map(i32_pattern);
    let [mut slopes, mut curvatures] = lists.clone();
    let ours = boundary::fit(minutes, ordinates, lent(&mut slopes), lent(&mut curvatures));
    let [mut wanted_slopes, mut wanted_curvatures] = lists;
    let wanted = reference::fit(minutes, ordinates, lent(&mut wanted_slopes), lent(&mut wanted_curvatures));
    let alike = slopes == wanted_slopes && curvatures == wanted_curvatures;
    let input = || format!("{minutes:?} {ordinates:?} into {lengths:?}");
    tally.count("fit", number(&wanted), ours, fitted(&wanted), alike, input);
}

/// The fit with ends, into lists of these lengths.
pub fn fit_ends(tally: &mut Tally, minutes: &[u16], ordinates: &[i16], lengths: [usize; 2], left: End, right: End) {
    if !tally.takes_the_next() {
        return;
    }
    let lists = lengths.map(i32_pattern);
    let [mut slopes, mut curvatures] = lists.clone();
    let handed = |end: End| boundary::End { code: end.code, slope: end.slope, curvature: end.curvature };
    let ours = boundary::fit_ends(minutes, ordinates, lent(&mut slopes), lent(&mut curvatures), handed(left), handed(right));
    let [mut wanted_slopes, mut wanted_curvatures] = lists;
    let wanted = reference::fit_ends(minutes, ordinates, lent(&mut wanted_slopes), lent(&mut wanted_curvatures), left, right);
    let alike = slopes == wanted_slopes && curvatures == wanted_curvatures;
    let input = || format!("{minutes:?} {ordinates:?} into {lengths:?} with {left:?} {right:?}");
    tally.count("fit_ends", number(&wanted), ours, fitted(&wanted), alike, input);
}

/// The fit of curvatures to given slopes, into a list of this length. The slopes are lent to be read, and
/// must stand as they were.
pub fn fit_slopes(tally: &mut Tally, minutes: &[u16], ordinates: &[i16], slopes: &[i32], length: usize) {
    if !tally.takes_the_next() {
        return;
    }
    let mut curvatures = i32_pattern(length);
    let mut wanted_curvatures = curvatures.clone();
    let mut given = within_a_pattern(i32_pattern(slopes.len()), slopes);
    let held = given.clone();
    let ours = boundary::fit_slopes(minutes, ordinates, lent(black_box(&mut given)), lent(&mut curvatures));
    let wanted = reference::fit_slopes(minutes, ordinates, slopes, lent(&mut wanted_curvatures));
    let alike = curvatures == wanted_curvatures && *black_box(&given) == held;
    let input = || format!("{minutes:?} {ordinates:?} {slopes:?} into {length}");
    tally.count("fit_slopes", number(&wanted), ours, fitted(&wanted), alike, input);
}

fn written(answer: &Result<u32, Refusal>) -> boundary::Written {
    match *answer {
        Ok(bytes) => boundary::Written { bytes, ..Default::default() },
        Err(Refusal { number, place }) => boundary::Written { number, place, ..Default::default() },
    }
}

/// The writer, into a buffer of this length.
pub fn write(tally: &mut Tally, minutes: &[u16], ordinates: &[i16], slopes: &[i32], curvatures: &[i32], codes: [u16; 2], length: usize) {
    if !tally.takes_the_next() {
        return;
    }
    let [left, right] = codes;
    let mut buffer = u8_pattern(length);
    let mut wanted_buffer = buffer.clone();
    let ours = boundary::write(minutes, ordinates, slopes, curvatures, left, right, lent(&mut buffer));
    let wanted = reference::write(minutes, ordinates, slopes, curvatures, left, right, lent(&mut wanted_buffer));
    let alike = buffer == wanted_buffer;
    let input = || format!("{minutes:?} {ordinates:?} {slopes:?} {curvatures:?} {codes:?} into {length}");
    tally.count("write", number(&wanted), ours, written(&wanted), alike, input);
}

/// The writer of a card of given slopes, into a buffer of this length.
pub fn write_slopes(tally: &mut Tally, minutes: &[u16], ordinates: &[i16], slopes: &[i32], curvatures: &[i32], length: usize) {
    if !tally.takes_the_next() {
        return;
    }
    let mut buffer = u8_pattern(length);
    let mut wanted_buffer = buffer.clone();
    let ours = boundary::write_slopes(minutes, ordinates, slopes, curvatures, lent(&mut buffer));
    let wanted = reference::write_slopes(minutes, ordinates, slopes, curvatures, lent(&mut wanted_buffer));
    let alike = buffer == wanted_buffer;
    let input = || format!("{minutes:?} {ordinates:?} {slopes:?} {curvatures:?} into {length}");
    tally.count("write_slopes", number(&wanted), ours, written(&wanted), alike, input);
}

fn checked(answer: &Result<reference::Card, Refusal>) -> boundary::Checked {
    match answer {
        Ok(card) => boundary::Checked {
            number: 0,
            place: 0,
            knots: card.minutes.len() as u32,
            left: card.left.into(),
            right: card.right.into(),
            kind: card.kind.head().into(),
        },
        Err(Refusal { number, place }) => boundary::Checked { number: *number, place: *place, ..Default::default() },
    }
}

pub fn check(tally: &mut Tally, card: &[u8]) {
    if !tally.takes_the_next() {
        return;
    }
    let wanted = reference::check(card);
    tally.count("check", number(&wanted), boundary::check(card), checked(&wanted), true, || hex(card));
}

/// The reader, into lists of these lengths.
pub fn read(tally: &mut Tally, card: &[u8], lengths: [usize; 4]) {
    if !tally.takes_the_next() {
        return;
    }
    let lists = || (u16_pattern(lengths[0]), i16_pattern(lengths[1]), i32_pattern(lengths[2]), i32_pattern(lengths[3]));
    let mut ours = lists();
    let mut wanted = lists();
    let answer = boundary::read(card, lent(&mut ours.0), lent(&mut ours.1), lent(&mut ours.2), lent(&mut ours.3));
    let wanted_answer = reference::read(card, lent(&mut wanted.0), lent(&mut wanted.1), lent(&mut wanted.2), lent(&mut wanted.3));
    let input = || format!("{} into {lengths:?}", hex(card));
    tally.count("read", number(&wanted_answer), answer, checked(&wanted_answer), ours == wanted, input);
}

fn read_off(answer: Result<reference::Reading, Refusal>) -> boundary::Reading {
    match answer {
        Ok(reference::Reading { value, slope, curvature, looks }) => {
            boundary::Reading { value, slope, curvature, looks, ..Default::default() }
        }
        Err(Refusal { number, place }) => boundary::Reading { number, place, ..Default::default() },
    }
}

fn compare_reading(tally: &mut Tally, card: &[u8], minute: u16, wanted: impl FnOnce() -> Result<reference::Reading, Refusal>) {
    if !tally.takes_the_next() {
        return;
    }
    let wanted = read_off(wanted());
    tally.count("reading", wanted.number, boundary::reading(card, minute), wanted, true, || format!("at {minute} off {}", hex(card)));
}

pub fn reading(tally: &mut Tally, card: &[u8], minute: u16) {
    compare_reading(tally, card, minute, || reference::reading(card, minute));
}

/// Every minute of a card, one before, one behind, and the two ends of all minutes.
fn minutes_of(card: &reference::Card) -> impl Iterator<Item = u16> {
    let (first, last) = (card.minutes[0], card.minutes[card.minutes.len() - 1]);
    (first.saturating_sub(1)..=last.saturating_add(1)).chain([0, u16::MAX])
}

/// A card read at all of these; and how far its curve swings.
pub fn readings(tally: &mut Tally, card: &[u8]) {
    swing(tally, card);
    let Ok(sound) = reference::check(card) else {
        reading(tally, card, 0);
        return;
    };
    for minute in minutes_of(&sound) {
        compare_reading(tally, card, minute, || reference::reading_of(&sound, minute));
    }
}

/// The table, into lists of these lengths.
pub fn table(tally: &mut Tally, card: &[u8], from: u16, lengths: [usize; 3]) {
    if !tally.takes_the_next() {
        return;
    }
    let mut ours = lengths.map(i32_pattern);
    let mut wanted = ours.clone();
    let [values, slopes, curvatures] = &mut ours;
    let answer = boundary::table(card, from, lent(values), lent(slopes), lent(curvatures));
    let [values, slopes, curvatures] = &mut wanted;
    let wanted_answer = match reference::table(card, from, lent(values), lent(slopes), lent(curvatures)) {
        Ok(count) => boundary::Tabled { count, ..Default::default() },
        Err(Refusal { number, place }) => boundary::Tabled { number, place, ..Default::default() },
    };
    let input = || format!("from {from} off {} into {lengths:?}", hex(card));
    tally.count("table", wanted_answer.number, answer, wanted_answer, ours == wanted, input);
}

/// An answer's whole number in the 64 bits that the boundary has for it.
fn narrowed(number: i128) -> i64 {
    number.try_into().expect("the limits of a card keep it within 64 bits")
}

fn explained(answer: Result<reference::Explained, (Refusal, Option<reference::Jump>)>) -> boundary::Explained {
    match answer {
        Ok(reference::Explained { gap, minutes, parts, denominator }) => {
            let [left_ordinate, right_ordinate, left_slope, right_slope, left_curvature, right_curvature] = parts.map(narrowed);
            boundary::Explained {
                gap,
                minutes,
                left_ordinate,
                right_ordinate,
                left_slope,
                right_slope,
                left_curvature,
                right_curvature,
                denominator: narrowed(denominator),
                ..Default::default()
            }
        }
        Err((Refusal { number, place }, None)) => boundary::Explained { number, place, ..Default::default() },
        Err((Refusal { number, place }, Some(reference::Jump { order, size, allowed }))) => {
            let (jump, allowance) = (narrowed(size), narrowed(allowed));
            boundary::Explained { number, place, knot: place, order, jump, allowance, ..Default::default() }
        }
    }
}

fn compare_explanation(
    tally: &mut Tally,
    card: &[u8],
    minute: u16,
    wanted: impl FnOnce() -> Result<reference::Explained, (Refusal, Option<reference::Jump>)>,
) {
    if !tally.takes_the_next() {
        return;
    }
    let wanted = explained(wanted());
    tally.count("explain", wanted.number, boundary::explain(card, minute), wanted, true, || format!("at {minute} off {}", hex(card)));
}

/// Why a card reads what it reads at a minute, or why it is refused.
pub fn explain(tally: &mut Tally, card: &[u8], minute: u16) {
    compare_explanation(tally, card, minute, || reference::explain(card, minute));
}

/// The same at all of a card's minutes and about them.
pub fn explanations(tally: &mut Tally, card: &[u8]) {
    let Ok(sound) = reference::check(card) else {
        explain(tally, card, 0);
        return;
    };
    for minute in minutes_of(&sound) {
        compare_explanation(tally, card, minute, || reference::explain_of(&sound, minute).map_err(|refusal| (refusal, None)));
    }
}

/// How far a card's curve swings.
pub fn swing(tally: &mut Tally, card: &[u8]) {
    if !tally.takes_the_next() {
        return;
    }
    let wanted = match reference::swing(card) {
        Ok(reference::Swing { knot, minute, below, above }) => boundary::Swing { knot, minute, below, above, ..Default::default() },
        Err(Refusal { number, place }) => boundary::Swing { number, place, ..Default::default() },
    };
    tally.count("swing", wanted.number, boundary::swing(card), wanted, true, || hex(card));
}

/// The values are lent to be read: they stand inside a pattern of numbers that are beyond the limit, so that
/// reading past either end shows too.
fn compare_preheat(tally: &mut Tally, values: &[i16], parts: u16, count: u16, wanted: impl FnOnce() -> Result<i32, Refusal>) {
    if !tally.takes_the_next() {
        return;
    }
    let wanted = match wanted() {
        Ok(value) => boundary::Preheated { value, ..Default::default() },
        Err(Refusal { number, place }) => boundary::Preheated { number, place, ..Default::default() },
    };
    let mut given = within_a_pattern(i16_pattern(values.len()), values);
    let held = given.clone();
    let ours = boundary::preheat(lent(black_box(&mut given)), parts, count);
    let input = || format!("at {count}, {parts} to a step, of {values:?}");
    tally.count("preheat", wanted.number, ours, wanted, *black_box(&given) == held, input);
}

/// The pre-heater's value at a count of parts.
pub fn preheat(tally: &mut Tally, values: &[i16], parts: u16, count: u16) {
    compare_preheat(tally, values, parts, count, || reference::preheat(values, parts, count));
}

/// The same of a table whose cubic is there already.
pub fn preheat_of(tally: &mut Tally, cubic: &reference::Cubic, values: &[i16], parts: u16, count: u16) {
    compare_preheat(tally, values, parts, count, || cubic.at(parts, count));
}

/// A card fitted anew, into lists of these lengths.
pub fn refit(tally: &mut Tally, card: &[u8], lengths: [usize; 2]) {
    if !tally.takes_the_next() {
        return;
    }
    let lists = lengths.map(i32_pattern);
    let [mut slopes, mut curvatures] = lists.clone();
    let ours = boundary::refit(card, lent(&mut slopes), lent(&mut curvatures));
    let [mut wanted_slopes, mut wanted_curvatures] = lists;
    let wanted = reference::refit(card, lent(&mut wanted_slopes), lent(&mut wanted_curvatures));
    let wanted_answer = match wanted {
        Ok(reference::Refitted { knots, changed }) => boundary::Refitted { knots, changed, ..Default::default() },
        Err(Refusal { number, place }) => boundary::Refitted { number, place, ..Default::default() },
    };
    let alike = slopes == wanted_slopes && curvatures == wanted_curvatures;
    tally.count("refit", number(&wanted), ours, wanted_answer, alike, || format!("{} into {lengths:?}", hex(card)));
}

fn as_the_reference_has_it(change: boundary::Change) -> reference::Change {
    let boundary::Change { place, old, new } = change;
    reference::Change { place, old, new }
}

/// A sheet mended, into lists for slopes and curvatures and a list of changes of these lengths. What the library's own list of
/// changes puts back must be the sheet as it came, after a refusal too.
pub fn mend(tally: &mut Tally, minutes: &[u16], sheet: &[i16], lengths: [usize; 2], room: usize) {
    if !tally.takes_the_next() {
        return;
    }
    let lists = lengths.map(i32_pattern);
    let [mut slopes, mut curvatures] = lists.clone();
    let mut ordinates = within_a_pattern(i16_pattern(sheet.len()), sheet);
    let mut wanted_ordinates = ordinates.clone();
    let mut changes = change_pattern(room);
    let mut wanted_changes: Vec<reference::Change> = changes.iter().copied().map(as_the_reference_has_it).collect();
    let ours = boundary::mend(minutes, lent(&mut ordinates), lent(&mut slopes), lent(&mut curvatures), lent(&mut changes));
    let [mut wanted_slopes, mut wanted_curvatures] = lists;
    let wanted = reference::mend(
        minutes,
        lent(&mut wanted_ordinates),
        lent(&mut wanted_slopes),
        lent(&mut wanted_curvatures),
        lent(&mut wanted_changes),
    );
    let wanted_answer = match wanted {
        Ok(count) => boundary::Mended { count, ..Default::default() },
        Err(Refusal { number, place }) => boundary::Mended { number, place, ..Default::default() },
    };
    let mut changes: Vec<reference::Change> = changes.into_iter().map(as_the_reference_has_it).collect();
    let alike = ordinates == wanted_ordinates && slopes == wanted_slopes && curvatures == wanted_curvatures && changes == wanted_changes;
    let written = lent(&mut changes).get(..ours.count as usize);
    let came_back = written.and_then(|written| reference::put_back(lent(&mut ordinates), written)).as_deref() == Some(sheet);
    let input = || format!("{minutes:?} {sheet:?} into {lengths:?} with {room} changes");
    tally.count("mend", number(&wanted), ours, wanted_answer, alike && came_back, input);
}

/// A buffer as it is handed on in a message: how long it is, and its bytes as far as a small book goes.
fn shown(buffer: &[u8]) -> String {
    format!("{} bytes {}", buffer.len(), hex(&buffer[..buffer.len().min(300)]))
}

/// A room looked up.
pub fn book_find(tally: &mut Tally, book: &[u8], room: u16) {
    if !tally.takes_the_next() {
        return;
    }
    let wanted = match reference::book_find(book, room) {
        Ok(reference::Part { start, length }) => boundary::Spot { start, length, ..Default::default() },
        Err(Refusal { number, place }) => boundary::Spot { number, place, ..Default::default() },
    };
    tally.count("book_find", wanted.number, boundary::book_find(book, room), wanted, true, || format!("of {room} in {}", shown(book)));
}

/// A book changed by the reference and by the library; the buffer is left as the reference leaves it, though
/// the library was not asked. Whether the change was accepted.
fn book_changed(
    tally: &mut Tally,
    function: &'static str,
    book: &mut [u8],
    by_reference: impl FnOnce(&mut [u8]) -> Result<u32, Refusal>,
    by_library: impl FnOnce(&mut [u8]) -> boundary::Used,
    what: impl FnOnce() -> String,
) -> bool {
    let mut wanted = within_a_pattern(u8_pattern(book.len()), book);
    let wanted_answer = match by_reference(lent(&mut wanted)) {
        Ok(bytes) => boundary::Used { bytes, ..Default::default() },
        Err(Refusal { number, place }) => boundary::Used { number, place, ..Default::default() },
    };
    if tally.takes_the_next() {
        let mut ours = within_a_pattern(u8_pattern(book.len()), book);
        let answer = by_library(lent(&mut ours));
        let input = || format!("of {} {}", what(), shown(book));
        tally.count(function, wanted_answer.number, answer, wanted_answer, ours == wanted, input);
    }
    book.copy_from_slice(lent(&mut wanted));
    wanted_answer.number == 0
}

/// A card put in.
pub fn book_put(tally: &mut Tally, book: &mut [u8], room: u16, card: &[u8]) -> bool {
    let what = || format!("{} for {room} into", shown(card));
    let by_reference = |book: &mut [u8]| reference::book_put(book, room, card);
    book_changed(tally, "book_put", book, by_reference, |book| boundary::book_put(book, room, card), what)
}

/// A room taken out.
pub fn book_remove(tally: &mut Tally, book: &mut [u8], room: u16) -> bool {
    let what = || format!("{room} out of");
    let by_reference = |book: &mut [u8]| reference::book_remove(book, room);
    book_changed(tally, "book_remove", book, by_reference, |book| boundary::book_remove(book, room), what)
}

/// A room looked up by the library, beside the bytes that were last put in for it and not taken out since, if
/// there are any: 20 where there are none, else their own refusal, or the part that has them.
pub fn card_in_book(tally: &mut Tally, book: &[u8], room: u16, card: Option<&[u8]>) {
    if !tally.takes_the_next() {
        return;
    }
    let wanted = match card.map(|card| (card, reference::check(card))) {
        None => (20, 0, &[][..]),
        Some((_, Err(Refusal { number, place }))) => (number, place, &[][..]),
        Some((card, Ok(_))) => (0, 0, card),
    };
    let spot = boundary::book_find(book, room);
    let (start, end) = (spot.start as usize, spot.start as usize + spot.length as usize);
    let part = book.get(start..end).unwrap_or(b"beyond the buffer");
    let empty = spot.number == 0 || spot == boundary::Spot { start: 0, length: 0, ..spot };
    let input = || format!("of {room}, {spot:?}, in {}", shown(book));
    tally.count("book_find", wanted.0, (spot.number, spot.place, part), wanted, empty, input);
}

/// A card put in for a room that the book does not have, and the room taken out again, by the library alone:
/// the book is the one that it was, and what lies behind the one with the card as well.
pub fn book_put_and_remove(tally: &mut Tally, book: &[u8], room: u16, card: &[u8]) {
    if !tally.takes_the_next() {
        return;
    }
    let rooms = reference::rooms(book).expect("a sound book");
    let bytes = reference::bytes_in_use(rooms.iter().map(|one| &one.card[..]));
    let larger = bytes + 6 + card.len();
    let mut ours = within_a_pattern(u8_pattern(book.len()), book);
    let put = boundary::book_put(lent(&mut ours), room, card);
    let out = boundary::book_remove(lent(&mut ours), room);
    let wanted = [larger, bytes].map(|bytes| boundary::Used { bytes: bytes as u32, ..Default::default() });
    let mut before = within_a_pattern(u8_pattern(book.len()), book);
    lent(&mut before)[bytes..larger].copy_from_slice(&lent(&mut ours)[bytes..larger]);
    let input = || format!("of {} put in for {room} into {}", shown(card), shown(book));
    tally.count("book_remove", 0, [put, out], wanted, ours == before, input);
}

/// The part of the book that the library hands back for a room, beside the card that was put in for it; and the library's reading
/// off that part, beside the reference's off that card.
pub fn reading_in_book(tally: &mut Tally, book: &[u8], room: u16, card: &[u8], minute: u16) {
    if !tally.takes_the_next() {
        return;
    }
    let spot = boundary::book_find(book, room);
    let (start, end) = (spot.start as usize, spot.start as usize + spot.length as usize);
    let part = book.get(start..end).unwrap_or(&[]);
    let wanted = read_off(reference::reading(card, minute));
    let input = || format!("at {minute} off room {room}, {spot:?}, in {}", shown(book));
    tally.count("reading", wanted.number, boundary::reading(part, minute), wanted, part == card, input);
}
