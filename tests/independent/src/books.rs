//! Books to compare on, in groups: small ones with every cut and every change of one byte, records of all sorts in a row, books at
//! the limit and at their buffer's end, and histories of cards put in and looked up; the same in every run.

use crate::compare::{self, Tally};
use crate::curves::{self, Numbers};
use crate::random::Random;
use crate::reference::{self, book_bytes, Kind, CARD_NUMBER_LIMIT, LONGEST_BOOK, MOST_KNOTS, ORDINATE_LIMIT};
use std::collections::BTreeMap;

pub const CLOSING: [u8; 4] = [0, 0, 3, 0];

/// What a room takes of a book beside its card's bytes: length, kind and number.
pub const ROOM_HEAD: usize = 6;

pub fn record(kind: u16, body: &[u8]) -> Vec<u8> {
    [&(body.len() as u16).to_le_bytes()[..], &kind.to_le_bytes(), body].concat()
}

pub fn room_record(room: u16, card: &[u8]) -> Vec<u8> {
    record(5, &[&room.to_le_bytes(), card].concat())
}

pub fn noise(random: &mut Random, length: usize) -> Vec<u8> {
    (0..length).map(|_| random.next() as u8).collect()
}

/// A buffer of this length that starts with a book, or with so much of it as there is room for.
pub fn in_a_buffer(random: &mut Random, book: &[u8], length: usize) -> Vec<u8> {
    let mut buffer = book[..book.len().min(length)].to_vec();
    buffer.extend(noise(random, length - buffer.len()));
    buffer
}

/// A sound card of so many knots.
pub fn sound_card(random: &mut Random, n: usize) -> Vec<u8> {
    let (left, right) = (random.below(3) as u16, random.below(3) as u16);
    curves::fitted(random, n, left, right).bytes()
}

/// Sound cards: of 3 knots, of 64, and of so many between.
pub fn sound_cards(random: &mut Random, least: i64, most: i64) -> Vec<Vec<u8>> {
    let mut knots = vec![3, MOST_KNOTS];
    knots.extend((0..10).map(|_| random.within(least, most) as usize));
    knots.into_iter().map(|n| sound_card(random, n)).collect()
}

/// Cards that are refused, at least one with each number of a card's order.
pub fn refused_cards(random: &mut Random) -> Vec<Vec<u8>> {
    let spoils: [fn(&mut Numbers); 8] = [
        |card| card.left = 3,
        |card| card.right = 65_535,
        |card| card.sheet.minutes[2] = card.sheet.minutes[1],
        |card| card.sheet.minutes[4] = card.sheet.minutes[3] + 61,
        |card| card.sheet.ordinates[3] = ORDINATE_LIMIT + 1,
        |card| card.slopes[1] = CARD_NUMBER_LIMIT + 1,
        |card| card.curvatures[4] = -CARD_NUMBER_LIMIT - 1,
        |card| card.curvatures[2] = -108_797,
    ];
    let mut cards: Vec<Vec<u8>> = Vec::new();
    for spoil in spoils {
        let mut card = curves::table_3();
        spoil(&mut card);
        cards.push(card.bytes());
    }
    for n in [0, 2, MOST_KNOTS + 1] {
        let sheet = curves::sheet(random, n);
        cards.push(Numbers { kind: Kind::Quintic, sheet, slopes: vec![0; n], curvatures: vec![0; n], left: 0, right: 0 }.bytes());
    }
    let sound = curves::table_3().bytes();
    for length in [0, 1, 9, 10, 25, sound.len() - 1] {
        cards.push(sound[..length].to_vec());
    }
    for at in [0, 2, 12, sound.len() - 2] {
        cards.push(sound.clone());
        cards.last_mut().expect("it was pushed")[at] ^= 1;
    }
    // Bytes behind the card's end: one, the card once more, and so many that their number in two bytes is the card's own.
    for more in [1, sound.len(), LONGEST_BOOK, 65_536] {
        cards.push(in_a_buffer(random, &sound, sound.len() + more));
    }
    cards
}

/// Rooms to ask for: the ends of all numbers, and such as differ in one of their two bytes or in the order of these.
pub const ROOMS: [u16; 9] = [0, 1, 255, 256, 257, 513, 258, 65_534, 65_535];

/// A small book, whose rooms have a few bytes, a sound card and no byte: every cut of it, all sorts of bytes behind it, and every
/// change of one byte.
fn small_books(tally: &mut Tally, random: &mut Random) {
    let card = sound_card(random, 3);
    let other = sound_card(random, 4);
    let book = [room_record(255, &[1, 2, 3]), room_record(256, &card), room_record(513, &[]), CLOSING.to_vec()].concat();
    for length in 0..=book.len() {
        for room in ROOMS {
            compare::book_find(tally, &book[..length], room);
            compare::book_put(tally, &mut book[..length].to_vec(), room, &card);
        }
    }
    for behind in [vec![0; 150], vec![255; 150], [&book[..], &book].concat(), CLOSING.repeat(30), room_record(514, &card).repeat(2)] {
        for length in 0..=behind.len() {
            let mut buffer = [&book, &behind[..length]].concat();
            compare::book_find(tally, &buffer, random.pick(&ROOMS));
            compare::book_put(tally, &mut buffer, random.pick(&ROOMS), random.pick(&[&card, &other]));
        }
    }
    for at in 0..book.len() {
        for change in 1..=255 {
            let length = book.len() + random.pick(&[0, 1, 70, 200]);
            let mut changed = in_a_buffer(random, &book, length);
            changed[at] ^= change;
            compare::book_find(tally, &changed, random.pick(&ROOMS));
            compare::book_put(tally, &mut changed, random.pick(&ROOMS), random.pick(&[&card, &other]));
        }
    }
}

/// Records in a row, mostly a book's: in some turns a body under 2 bytes, another kind, an end with a body or none, a room that
/// does not rise, or several of these.
pub fn pile(random: &mut Random, card: &[u8]) -> Vec<u8> {
    let faults = random.below(3);
    let faulty = |random: &mut Random| random.once_in([1_000, 10, 4][faults]);
    let mut bytes = Vec::new();
    let mut room: u16 = random.pick(&[0, 0, 1, 254, 65_530]);
    for _ in 0..random.below(7) {
        let size = random.below(9);
        let inside = if random.once_in(4) { card.to_vec() } else { noise(random, size) };
        let body = [&room.to_le_bytes()[..], &inside].concat();
        bytes.extend(match (faulty(random), random.below(4)) {
            (true, 0) => record(5, &body[..random.below(2)]),
            (true, 1) => record(random.pick(&[0, 1, 2, 4, 6, 7, 0x0105, 0x0500, 0x0503]), &body),
            (true, 2) => record(3, &body[..random.within(1, 2) as usize]),
            (true, _) => [&random.pick(&[17u16, 300, 16_380, 65_532, 65_535]).to_le_bytes(), &[5, 0][..], &body].concat(),
            (false, _) => record(5, &body),
        });
        room = match (faulty(random), random.below(3)) {
            (true, 0) => room,
            (true, 1) => room.wrapping_sub(1),
            (true, _) => random.next() as u16,
            (false, more) => room.saturating_add(1 + more as u16),
        };
    }
    if faulty(random) {
        bytes.extend(&CLOSING[..random.below(4)]);
    } else {
        bytes.extend(CLOSING);
        let length = bytes.len() + random.pick(&[0, 0, 1, 40, 100, 500]);
        bytes = in_a_buffer(random, &bytes, length);
    }
    bytes
}

/// The rooms whose records a reader meets in these bytes, sound book or not; and one that is perhaps not there.
pub fn rooms_in(random: &mut Random, bytes: &[u8]) -> Vec<u16> {
    let mut rooms = vec![random.pick(&ROOMS)];
    let mut rest = bytes;
    while let [low, high, 5, 0, room @ ..] = rest {
        let length = usize::from(u16::from_le_bytes([*low, *high]));
        if let [low, high, ..] = room {
            rooms.push(u16::from_le_bytes([*low, *high]));
        }
        rest = room.get(length..).unwrap_or(&[]);
    }
    rooms
}

/// Records of all sorts in a row, bytes of no meaning, and rooms that do not rise before and behind a record that is none.
fn piles(tally: &mut Tally, random: &mut Random) {
    let card = sound_card(random, 3);
    let refused = refused_cards(random);
    for _ in 0..30_000 {
        let mut bytes = pile(random, &card);
        let rooms = rooms_in(random, &bytes);
        compare::book_find(tally, &bytes, random.pick(&rooms));
        let new = if random.once_in(4) { &refused[random.below(refused.len())] } else { &card };
        compare::book_put(tally, &mut bytes, random.pick(&rooms), new);
    }
    for _ in 0..2_000 {
        let length = random.below(40);
        let mut bytes = noise(random, length);
        bytes.iter_mut().for_each(|byte| *byte &= random.pick(&[1, 7, 255]));
        compare::book_find(tally, &bytes, 0);
        compare::book_put(tally, &mut bytes, 0, &card);
    }
    let wrong: [&[u8]; 7] = [&[], &[0], &[0, 0, 3], &[1, 0, 5, 0, 9], &[0, 0, 5, 0], &[2, 0, 4, 0, 9, 0], &[9, 0, 5, 0, 9]];
    for rooms in [[5, 5, 6], [5, 4, 6], [5, 6, 6], [5, 6, 5], [5, 5, 5], [65_535, 0, 1], [5, 6, 7]] {
        let records = rooms.map(|room| room_record(room, &[7; 3]));
        for fault in wrong {
            for place in 0..=3 {
                let mut book = [records[..place].concat(), fault.to_vec(), records[place..].concat(), CLOSING.to_vec()].concat();
                for room in [5, 6, 8] {
                    compare::book_find(tally, &book, room);
                    for new in [&card, &card[1..]] {
                        compare::book_put(tally, &mut book, room, new);
                    }
                }
            }
        }
    }
}

/// Each refused card in a book between two sound ones: looked up, left as it is where a neighbour is put in, and replaced.
fn refused_cards_in_books(tally: &mut Tally, random: &mut Random) {
    let (card, other) = (sound_card(random, 3), sound_card(random, 9));
    for refused in refused_cards(random) {
        let book = [room_record(3, &card), room_record(4, &refused), room_record(5, &other), CLOSING.to_vec()].concat();
        for room in 2..=6 {
            compare::book_find(tally, &book, room);
            for new in [&card, &other, &refused] {
                for more in [0, 68, 1_000] {
                    let mut buffer = in_a_buffer(random, &book, book.len() + more);
                    compare::book_put(tally, &mut buffer, room, new);
                    compare::book_find(tally, &buffer, random.within(2, 6) as u16);
                }
            }
        }
    }
}

/// Books whose own end is about the limit, with the filling in front or behind, in buffers that end about there too; and records
/// so long that their end needs more than two bytes.
fn books_about_the_limit(tally: &mut Tally, random: &mut Random) {
    let card = sound_card(random, 3);
    let rest = LONGEST_BOOK - CLOSING.len() - 2 * ROOM_HEAD - card.len();
    for over in -9..=9 {
        let filling = noise(random, rest.wrapping_add_signed(over));
        for rooms in [[(7, &card), (8, &filling)], [(7, &filling), (8, &card)]] {
            let book = book_bytes(&rooms.map(|(room, card)| (room, card.clone())).into());
            let ends = [-1, 0, 1].map(|by| book.len().wrapping_add_signed(by));
            for length in ends.into_iter().chain([LONGEST_BOOK - 1, LONGEST_BOOK, LONGEST_BOOK + 1, 20_000]) {
                let mut buffer = in_a_buffer(random, &book, length);
                for room in [7, 8, 9] {
                    compare::book_find(tally, &buffer, room);
                }
                compare::book_put(tally, &mut buffer, random.pick(&[6, 7, 8]), &card);
            }
        }
    }
    for body in [16_379, 16_380, 16_381, 16_384, 65_530, 65_531, 65_532, 65_533, 65_535] {
        for before in [vec![], room_record(1, &card)] {
            let book = [before, record(5, &[&[9, 0], &vec![0; body - 2][..]].concat()), CLOSING.to_vec()].concat();
            for length in [book.len(), 70_000] {
                let mut buffer = in_a_buffer(random, &book, length);
                compare::book_find(tally, &buffer, 9);
                compare::book_put(tally, &mut buffer, 9, &card);
            }
        }
    }
    // Buffers whose length in two bytes is that of less than the book.
    for length in [65_536, 65_537, 65_540, 65_600, 65_605, 65_608] {
        let mut buffer = in_a_buffer(random, &[room_record(3, &card), CLOSING.to_vec()].concat(), length);
        compare::book_find(tally, &buffer, 3);
        compare::book_put(tally, &mut buffer, 4, &card);
        compare::book_find(tally, &buffer, 4);
    }
}

/// New books whose end is about the limit or about the end of their buffer, by what is there for the room: nothing, no byte, a
/// card that is shorter, as long or longer, damaged or not, in front of the other room or behind it.
fn puts_about_the_limit(tally: &mut Tally, random: &mut Random, knots: usize) {
    let new = sound_card(random, knots);
    let mut damaged = new.clone();
    damaged[30] ^= 255;
    let longer = noise(random, 1_500);
    let there = [None, Some(vec![]), Some(sound_card(random, 3)), Some(damaged), Some(new.clone()), Some(longer)];
    for limit in [120, 300, 1_200, 5_000, LONGEST_BOOK - 1, LONGEST_BOOK] {
        let lengths = if limit == LONGEST_BOOK { vec![limit, limit + 1, 20_000] } else { vec![limit] };
        for over in -2..=2 {
            let made = limit.wrapping_add_signed(over);
            let Some(rest) = made.checked_sub(CLOSING.len() + 2 * ROOM_HEAD + new.len()) else { continue };
            let filling = noise(random, rest);
            for old in &there {
                for [room, other] in [[9, 10], [9, 8]] {
                    let mut cards = BTreeMap::from([(other, filling.clone())]);
                    cards.extend(old.clone().map(|old| (room, old)));
                    let book = book_bytes(&cards);
                    for &length in &lengths {
                        let mut buffer = in_a_buffer(random, &book, length);
                        compare::book_put(tally, &mut buffer, room, &new);
                        compare::book_find(tally, &buffer, room);
                        compare::book_find(tally, &buffer, other);
                    }
                }
            }
        }
    }
}

/// A minute of a card, or one beside it.
fn minute_of(random: &mut Random, card: &[u8]) -> u16 {
    match reference::check(card) {
        Ok(sound) => random.within(i64::from(sound.minutes[0]) - 1, i64::from(sound.minutes[sound.minutes.len() - 1]) + 1) as u16,
        Err(_) => 0,
    }
}

/// The hall's fourteen rooms with cards of 64 knots, put in in any order, and a fifteenth and a sixteenth; then short cards for all,
/// and full ones again. The buffers have the bytes of fourteen such rooms, one less, one more, the limit's, and more than that.
fn halls(tally: &mut Tally, random: &mut Random) {
    let full: Vec<Vec<u8>> = (0..16).map(|_| sound_card(random, MOST_KNOTS)).collect();
    let short: Vec<Vec<u8>> = (0..16).map(|_| sound_card(random, 3)).collect();
    for length in [14_619, 14_620, 14_621, LONGEST_BOOK, 20_000] {
        let mut book = in_a_buffer(random, &CLOSING, length);
        let mut hall: BTreeMap<u16, &[u8]> = BTreeMap::new();
        for cards in [&full, &short, &full] {
            let mut rooms: Vec<u16> = (1..=16).collect();
            while !rooms.is_empty() {
                let room = rooms.swap_remove(random.below(rooms.len()));
                let card = &cards[usize::from(room) - 1];
                if compare::book_put(tally, &mut book, room, card) {
                    hall.insert(room, card);
                }
                compare::book_find(tally, &book, random.within(0, 17) as u16);
            }
            for (&room, card) in &hall {
                compare::reading_in_book(tally, &book, room, card, minute_of(random, card));
            }
        }
    }
}

/// One history from a book with no room on: cards put in for few rooms or many, refused ones among them, looked up, and in some
/// histories a byte of a card in the book changed now and then. What was last accepted for a room and not changed since is what the
/// library finds.
fn history(tally: &mut Tally, random: &mut Random, sound: &[Vec<u8>], refused: &[Vec<u8>], length: usize) {
    let mut book = in_a_buffer(random, &CLOSING, length);
    let mut hall: BTreeMap<u16, &[u8]> = BTreeMap::new();
    let changes = random.once_in(3);
    let mut rooms = ROOMS.to_vec();
    rooms.extend((0..length / 400).map(|_| random.next() as u16));
    for _ in 0..random.within(5, 10 + 2 * rooms.len() as i64) {
        let room = random.pick(&rooms);
        let card = if random.once_in(5) { &refused[random.below(refused.len())] } else { &sound[random.below(sound.len())] };
        if compare::book_put(tally, &mut book, room, card) {
            hall.insert(room, card);
        }
        compare::book_find(tally, &book, random.pick(&rooms));
        if changes && random.once_in(4) {
            let rooms = reference::rooms(&book).unwrap_or_default();
            if let Some(room) = rooms.get(random.below(1 + rooms.len())) {
                book[room.offset + ROOM_HEAD + random.below(room.card.len())] ^= 1 << random.below(8);
                hall.remove(&room.number);
                compare::book_find(tally, &book, room.number);
            }
        }
        if let Some(card) = hall.get(&room) {
            compare::reading_in_book(tally, &book, room, card, minute_of(random, card));
        }
    }
    for room in rooms {
        compare::book_find(tally, &book, room);
        if let Some(card) = hall.get(&room) {
            compare::reading_in_book(tally, &book, room, card, minute_of(random, card));
        }
    }
}

/// Histories in buffers of every size: none, under a book with no room, under one room, for a few, about the limit, beyond it.
fn histories(tally: &mut Tally, random: &mut Random) {
    let refused = refused_cards(random);
    let pools = [(3, 5), (3, 64), (40, 64)].map(|(least, most)| sound_cards(random, least, most));
    for turn in 0..400 {
        let length = match turn {
            0..=8 => turn,
            9..=120 => random.within(60, 300) as usize,
            121..=220 => random.within(300, 5_000) as usize,
            221..=320 => random.within(5_000, 20_000) as usize,
            _ => LONGEST_BOOK.wrapping_add_signed(random.pick(&[-1, 0, 0, 1])),
        };
        let sound = &pools[random.below(pools.len())];
        history(tally, random, sound, &refused, length);
    }
}

/// Histories with cards of document 01 and of given slopes side by side, and refused ones of both.
pub fn books_of_both_kinds(tally: &mut Tally, random: &mut Random) {
    let mut refused = refused_cards(random);
    for of_one in refused.clone().iter_mut().filter(|card| card.len() > 4) {
        of_one[2] = Kind::Sloped.head() as u8;
        refused.push(of_one.clone());
    }
    let table_3 = curves::table_3_sloped();
    for [left, right] in [[1, 0], [0, 1], [2, 0], [0, 2]] {
        refused.push(Numbers { left, right, ..table_3.clone() }.bytes());
    }
    refused.push(table_3.headed(7));
    let pools = [(3, 5), (3, 64)].map(|(least, most)| {
        let mut cards = sound_cards(random, least, most);
        for _ in 0..12 {
            let n = random.within(least, most) as usize;
            cards.push(curves::fitted_to_slopes(random, n).bytes());
        }
        cards
    });
    for turn in 0..120 {
        let length = random.within(60, [300, 5_000, 20_000][turn % 3]) as usize;
        history(tally, random, &pools[turn % 2], &refused, length);
    }
}

/// Books whose bytes are cut, changed, or put together of other records.
pub fn bytes_of_books(tally: &mut Tally, random: &mut Random) {
    small_books(tally, random);
    piles(tally, random);
    refused_cards_in_books(tally, random);
}

/// Books about the limit of 16,384 bytes and about the end of their buffer.
pub fn limits_of_books(tally: &mut Tally, random: &mut Random) {
    books_about_the_limit(tally, random);
    for knots in [3, 5, 30, MOST_KNOTS] {
        puts_about_the_limit(tally, random, knots);
    }
}

/// Books into which cards are put again and again.
pub fn books_in_use(tally: &mut Tally, random: &mut Random) {
    halls(tally, random);
    histories(tally, random);
}
