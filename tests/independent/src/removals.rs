//! Rooms taken out of books, in groups: of bytes that are cut, changed or put together of other records; of
//! books of a few rooms and of full ones, with damaged cards too; and long turns of cards put in, rooms taken
//! out and rooms looked up; the same in every run.

use crate::books::{in_a_buffer, noise, pile, record, refused_cards, room_record, rooms_in, sound_card, sound_cards};
use crate::books::{CLOSING, ROOMS, ROOM_HEAD};
use crate::compare::{self, Tally};
use crate::curves;
use crate::random::Random;
use crate::reference::{self, book_bytes, bytes_in_use, LONGEST_BOOK, MOST_KNOTS};
use std::collections::BTreeMap;

/// What each room has in a book, card or not.
type Hall = BTreeMap<u16, Vec<u8>>;

fn in_use(hall: &Hall) -> usize {
    bytes_in_use(hall.values().map(|card| &card[..]))
}

/// A room of the hall, drawn, if it has one.
fn one_of(random: &mut Random, hall: &Hall) -> Option<u16> {
    let place = random.below(hall.len().max(1));
    hall.keys().nth(place).copied()
}

/// A small book, whose rooms have a few bytes, a sound card and no byte: every cut of it, all sorts of bytes
/// behind it, and every change of one byte.
fn small_books(tally: &mut Tally, random: &mut Random) {
    let card = sound_card(random, 3);
    let book = [room_record(255, &[1, 2, 3]), room_record(256, &card), room_record(513, &[]), CLOSING.to_vec()].concat();
    for length in 0..=book.len() {
        for room in ROOMS {
            compare::book_remove(tally, &mut book[..length].to_vec(), room);
        }
    }
    for behind in [vec![0; 90], vec![255; 90], [&book[..], &book].concat(), CLOSING.repeat(30), room_record(514, &card).repeat(2)] {
        for length in 0..=behind.len() {
            compare::book_remove(tally, &mut [&book, &behind[..length]].concat(), random.pick(&[255, 256, 513, 514]));
        }
    }
    for at in 0..book.len() {
        for change in 1..=255 {
            let length = book.len() + random.pick(&[0, 1, 70, 200]);
            let mut changed = in_a_buffer(random, &book, length);
            changed[at] ^= change;
            for room in [random.pick(&[255, 256, 513]), random.pick(&ROOMS)] {
                compare::book_remove(tally, &mut changed.clone(), room);
            }
        }
    }
}

/// Records of all sorts in a row, bytes of no meaning, and rooms that do not rise before and behind a record
/// that is none; every room that is met is taken out, and one that is perhaps not there.
fn piles(tally: &mut Tally, random: &mut Random) {
    let card = sound_card(random, 3);
    for _ in 0..15_000 {
        let bytes = pile(random, &card);
        for room in rooms_in(random, &bytes) {
            compare::book_remove(tally, &mut bytes.clone(), room);
        }
    }
    for _ in 0..2_000 {
        let length = random.below(40);
        let mut bytes = noise(random, length);
        bytes.iter_mut().for_each(|byte| *byte &= random.pick(&[1, 7, 255]));
        compare::book_remove(tally, &mut bytes, 0);
    }
    let wrong: [&[u8]; 7] = [&[], &[0], &[0, 0, 3], &[1, 0, 5, 0, 9], &[0, 0, 5, 0], &[2, 0, 4, 0, 9, 0], &[9, 0, 5, 0, 9]];
    for rooms in [[5, 5, 6], [5, 4, 6], [5, 6, 6], [5, 6, 5], [5, 5, 5], [65_535, 0, 1], [5, 6, 7]] {
        let records = rooms.map(|room| room_record(room, &[7; 3]));
        for fault in wrong {
            for place in 0..=3 {
                let book = [records[..place].concat(), fault.to_vec(), records[place..].concat(), CLOSING.to_vec()].concat();
                for room in [0, 1, 4, 5, 6, 7, 8, 65_535] {
                    compare::book_remove(tally, &mut book.clone(), room);
                }
            }
        }
    }
}

/// Books whose own end is about the limit, in buffers that end about there too; records so long that their
/// end needs more than two bytes; and buffers whose length in two bytes is that of less than the book.
fn about_the_limit(tally: &mut Tally, random: &mut Random) {
    let card = sound_card(random, 3);
    let rest = LONGEST_BOOK - CLOSING.len() - 2 * ROOM_HEAD - card.len();
    for over in -9..=9 {
        let filling = noise(random, rest.wrapping_add_signed(over));
        for rooms in [[(7, &card), (8, &filling)], [(7, &filling), (8, &card)]] {
            let book = book_bytes(&rooms.map(|(room, card)| (room, card.clone())).into());
            let ends = [-1, 0, 1].map(|by| book.len().wrapping_add_signed(by));
            for length in ends.into_iter().chain([LONGEST_BOOK - 1, LONGEST_BOOK, LONGEST_BOOK + 1, 20_000]) {
                for room in [6, 7, 8] {
                    compare::book_remove(tally, &mut in_a_buffer(random, &book, length), room);
                }
            }
        }
    }
    for body in [16_379, 16_380, 16_381, 16_384, 65_530, 65_531, 65_532, 65_533, 65_535] {
        for before in [vec![], room_record(1, &card)] {
            let book = [before, record(5, &[&[9, 0], &vec![0; body - 2][..]].concat()), CLOSING.to_vec()].concat();
            for length in [book.len(), 70_000] {
                compare::book_remove(tally, &mut in_a_buffer(random, &book, length), random.pick(&[1, 9]));
            }
        }
    }
    for length in [65_536, 65_537, 65_540, 65_600, 65_605, 65_608] {
        let mut buffer = in_a_buffer(random, &[room_record(3, &card), CLOSING.to_vec()].concat(), length);
        compare::book_remove(tally, &mut buffer, 4);
        compare::book_remove(tally, &mut buffer, 3);
        compare::book_remove(tally, &mut buffer, 3);
    }
}

/// Taken out of books whose bytes are cut, changed, put together of other records, or at the limit.
pub fn bytes_of_books(tally: &mut Tally, random: &mut Random) {
    small_books(tally, random);
    piles(tally, random);
    about_the_limit(tally, random);
}

/// What may lie behind a book: bytes of no meaning, rooms that the book has or that rise behind its own, or
/// closing records.
fn behind(random: &mut Random, hall: &Hall) -> Vec<u8> {
    match random.below(5) {
        0 => vec![],
        1 => {
            let length = random.within(1, 150) as usize;
            noise(random, length)
        }
        2 => book_bytes(hall),
        3 => [room_record(65_535, &[1; 9]), CLOSING.to_vec()].concat(),
        _ => CLOSING.repeat(9),
    }
}

/// All rooms of a hall looked up, and these.
fn looked_up(tally: &mut Tally, book: &[u8], hall: &Hall, others: &[u16]) {
    for room in hall.keys().chain(others) {
        compare::card_in_book(tally, book, *room, hall.get(room).map(|card| &card[..]));
    }
}

/// The reference's book, at the start of its buffer, has the rooms of this hall and its bytes in use.
fn is_the_book(book: &[u8], hall: &Hall) {
    assert_eq!(book[..in_use(hall)], book_bytes(hall), "the reference's book is another");
}

/// A room taken out of the book of this hall, and out of the hall, which says whether it is there.
fn taken_out(tally: &mut Tally, book: &mut [u8], hall: &mut Hall, room: u16) -> bool {
    let there = hall.remove(&room).is_some();
    assert_eq!(compare::book_remove(tally, book, room), there, "the reference has room {room} or not");
    is_the_book(book, hall);
    there
}

/// A card put into the book of this hall, and into the hall where it was accepted, which is what it gives.
fn put_in(tally: &mut Tally, book: &mut [u8], hall: &mut Hall, room: u16, card: &[u8]) -> bool {
    let accepted = compare::book_put(tally, book, room, card);
    if accepted {
        hall.insert(room, card.to_vec());
    }
    is_the_book(book, hall);
    accepted
}

/// Books of one room to seven, of sound cards, damaged ones, a few bytes and none: each room taken out, and
/// one beside each; all of them one after the other, in any order; and a card put in for a room that is not
/// there, and that room taken out again.
fn few_rooms(tally: &mut Tally, random: &mut Random, sound: &[Vec<u8>], refused: &[Vec<u8>]) {
    for turn in 0..1_200 {
        let mut hall = Hall::new();
        while hall.len() <= turn % 7 {
            let card = match random.below(5) {
                0 => refused[random.below(refused.len())].clone(),
                1 => vec![],
                2 => vec![5; random.below(4)],
                _ => sound[random.below(sound.len())].clone(),
            };
            if in_use(&hall) + ROOM_HEAD + card.len() <= LONGEST_BOOK {
                let any = random.next() as u16;
                hall.insert(random.pick(&[0, 1, 2, 3, 255, 256, 257, 258, 513, 65_534, 65_535, any]), card);
            }
        }
        let buffer = [book_bytes(&hall), behind(random, &hall)].concat();
        let beside: Vec<u16> =
            hall.keys().flat_map(|room| [room.wrapping_sub(1), *room, room.wrapping_add(1), room.swap_bytes()]).collect();
        for room in beside.iter().chain(&ROOMS) {
            let (mut book, mut left) = (buffer.clone(), hall.clone());
            if taken_out(tally, &mut book, &mut left, *room) {
                looked_up(tally, &book, &left, &[*room]);
            } else {
                let card = &sound[random.below(sound.len())];
                book.resize(book.len() + ROOM_HEAD + card.len(), 0xB5);
                if in_use(&hall) + ROOM_HEAD + card.len() <= LONGEST_BOOK {
                    compare::book_put_and_remove(tally, &book, *room, card);
                }
            }
        }
        let (mut book, mut left) = (buffer, hall);
        while let Some(room) = one_of(random, &left) {
            taken_out(tally, &mut book, &mut left, room);
            taken_out(tally, &mut book, &mut left, room);
        }
        looked_up(tally, &book, &left, &beside);
    }
}

/// Each refused card in a book between two sound ones: a room taken out leaves it as it is, or is its own.
fn damaged_cards(tally: &mut Tally, random: &mut Random, refused: &[Vec<u8>]) {
    let (card, other) = (sound_card(random, 3), sound_card(random, 9));
    for damaged in refused.iter().filter(|card| card.len() < 10_000) {
        let hall = Hall::from([(3, card.clone()), (4, damaged.clone()), (5, other.clone())]);
        for more in [0, 1, 68, 1_000] {
            for room in 2..=6 {
                let (mut book, mut left) = (in_a_buffer(random, &book_bytes(&hall), in_use(&hall) + more), hall.clone());
                taken_out(tally, &mut book, &mut left, room);
                looked_up(tally, &book, &left, &[2, 3, 4, 5, 6]);
            }
        }
    }
}

/// Full books: a longer card for a room that is not there is 21, and goes in as soon as any room is taken
/// out. The buffers have the book's own bytes, so many more that the card then goes in to the last byte, one
/// less than these, the limit's, and more. The second hall is then at the limit itself.
fn full_books(tally: &mut Tally, random: &mut Random) {
    for (knots, rooms, longer) in [(3, 5, 4), (40, 24, 64), (52, 19, MOST_KNOTS), (30, 3, 60), (MOST_KNOTS, 15, MOST_KNOTS)] {
        let cards: Vec<Vec<u8>> = (0..rooms).map(|_| sound_card(random, knots)).collect();
        let hall: Hall = (1..).step_by(3).zip(cards).collect();
        let new = sound_card(random, longer);
        let full = book_bytes(&hall);
        let freed = full.len() + new.len() - hall[&1].len();
        for length in [full.len(), full.len().max(freed - 1), freed, LONGEST_BOOK, 20_000] {
            for room in [1, 3 * (rooms as u16 / 2) + 1, 3 * rooms as u16 - 2] {
                for other in [0, room + 1, room, 65_535] {
                    let (mut book, mut left) = (in_a_buffer(random, &full, length), hall.clone());
                    let most = length.min(LONGEST_BOOK);
                    if !left.contains_key(&other) {
                        let before = put_in(tally, &mut book, &mut left, other, &new);
                        assert_eq!(before, full.len() + ROOM_HEAD + new.len() <= most);
                        if before {
                            taken_out(tally, &mut book, &mut left, other);
                        }
                    }
                    assert!(taken_out(tally, &mut book, &mut left, room));
                    assert_eq!(put_in(tally, &mut book, &mut left, other, &new), freed <= most);
                    looked_up(tally, &book, &left, &[room, other]);
                }
            }
        }
    }
}

/// The hall's fourteen rooms with cards of 64 knots: each taken out of the whole book, and all of them in any
/// order, with cards put in between.
fn halls(tally: &mut Tally, random: &mut Random) {
    let full: Vec<Vec<u8>> = (0..15).map(|_| sound_card(random, MOST_KNOTS)).collect();
    for length in [14_620, 14_621, LONGEST_BOOK, 20_000] {
        let hall: Hall = (1..=14).zip(full.clone()).collect();
        let buffer = in_a_buffer(random, &book_bytes(&hall), length);
        for room in 0..=15 {
            let (mut book, mut left) = (buffer.clone(), hall.clone());
            taken_out(tally, &mut book, &mut left, room);
            looked_up(tally, &book, &left, &[room]);
        }
        let (mut book, mut left) = (buffer, hall);
        for turn in 0.. {
            let Some(room) = one_of(random, &left) else { break };
            taken_out(tally, &mut book, &mut left, room);
            if turn % 3 == 0 {
                put_in(tally, &mut book, &mut left, room + 20, &full[14]);
            }
        }
        looked_up(tally, &book, &left, &[1, 14, 21]);
    }
}

/// Of books, few rooms or many, with damaged cards and without.
pub fn books(tally: &mut Tally, random: &mut Random) {
    let sound = sound_cards(random, 3, 12);
    let refused = refused_cards(random);
    few_rooms(tally, random, &sound, &refused);
    damaged_cards(tally, random, &refused);
    full_books(tally, random);
    halls(tally, random);
}

/// Cards put in, rooms taken out and rooms looked up, so many times, from a book with no room on; cards that
/// are refused, rooms that are not there and, in some of these, cards damaged in the book among them. A plain
/// list of what was last put in for each room and not taken out since says what the library finds, in the end
/// for every room that there was.
fn turns_in(tally: &mut Tally, random: &mut Random, [sound, refused]: [&[Vec<u8>]; 2], length: usize, times: usize) {
    let mut book = in_a_buffer(random, &CLOSING, length);
    if length < CLOSING.len() {
        // No book goes in there.
        compare::book_remove(tally, &mut book, 0);
        compare::book_put(tally, &mut book, 0, &sound[0]);
        return;
    }
    let mut hall = Hall::new();
    let damages = random.once_in(3);
    let mut rooms = ROOMS.to_vec();
    rooms.extend((0..length / 400).map(|_| random.next() as u16));
    // So many of ten that change the book are removals.
    let out = random.pick(&[2, 3, 5]);
    for _ in 0..times {
        let room = match one_of(random, &hall) {
            Some(there) if random.once_in(3) => there,
            _ => random.pick(&rooms),
        };
        match random.below(12) {
            0 => compare::book_find(tally, &book, room),
            1 => {
                put_in(tally, &mut book, &mut hall, room, &refused[random.below(refused.len())]);
            }
            turn if turn < 2 + out => {
                taken_out(tally, &mut book, &mut hall, room);
            }
            _ => {
                put_in(tally, &mut book, &mut hall, room, &sound[random.below(sound.len())]);
            }
        }
        if damages && random.once_in(9) {
            let there = reference::rooms(&book).expect("a sound book");
            if let Some(one) = there.get(random.below(1 + there.len())) {
                let (at, bit) = (random.below(one.card.len()), 1 << random.below(8));
                book[one.offset + ROOM_HEAD + at] ^= bit;
                hall.get_mut(&one.number).expect("it is there")[at] ^= bit;
            }
        }
        compare::card_in_book(tally, &book, room, hall.get(&room).map(|card| &card[..]));
    }
    looked_up(tally, &book, &hall, &rooms);
    let goes_in = |card: &&Vec<u8>| in_use(&hall) + ROOM_HEAD + card.len() <= length.min(LONGEST_BOOK);
    if let (Some(absent), Some(card)) = (rooms.iter().find(|room| !hall.contains_key(room)), sound.iter().find(goes_in)) {
        compare::book_put_and_remove(tally, &book, *absent, card);
    }
}

/// In buffers of every size: none, under a book with no room, under one room, for a few, about the limit,
/// beyond it; with cards of both kinds; and thousands of times in one buffer.
pub fn turns(tally: &mut Tally, random: &mut Random) {
    let refused = refused_cards(random);
    let pools = [(3, 5), (3, 64), (40, 64)].map(|(least, most)| {
        let mut cards = sound_cards(random, least, most);
        for _ in 0..6 {
            let n = random.within(least, most) as usize;
            cards.push(curves::fitted_to_slopes(random, n).bytes());
        }
        cards
    });
    for turn in 0..600 {
        let length = match turn {
            0..=8 => turn,
            9..=200 => random.within(60, 300) as usize,
            201..=350 => random.within(300, 5_000) as usize,
            351..=500 => random.within(5_000, 20_000) as usize,
            _ => LONGEST_BOOK.wrapping_add_signed(random.pick(&[-1, 0, 0, 1])),
        };
        let sound = &pools[random.below(pools.len())];
        let times = random.within(10, 100) as usize;
        turns_in(tally, random, [sound, &refused], length, times);
    }
    for (length, pool) in [(400, 0), (3_000, 1), (LONGEST_BOOK, 0), (LONGEST_BOOK, 2), (20_000, 1)] {
        turns_in(tally, random, [&pools[pool], &refused], length, 5_000);
    }
}
