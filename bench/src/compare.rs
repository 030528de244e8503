//! The library and plain Rust on sound and unsound inputs of each kind: both must answer alike and leave the
//! same in what they are lent.

use crate::inputs::{first_and_count, Cards, Inputs, KNOTS, PARTS};
use crate::library::{Change, End, Functions, Library};
use crate::plain::Plain;
use independent::curves::{self, Numbers, Sheet};
use independent::random::Random;
use independent::reference;
use std::fmt::Debug;

/// What one question gives, of the library and of plain Rust, from lists of a pattern on.
fn same<A: Debug + PartialEq>(library: &Library, question: &dyn Debug, ask: impl Fn(&dyn Functions) -> A) {
    assert_eq!(ask(library), ask(&Plain), "{question:?}");
}

fn same_fit(library: &Library, sheet: &Sheet, ends: [End; 2], given: &[i32]) {
    let (n, knots) = (sheet.minutes.len(), (&sheet.minutes[..], &sheet.ordinates[..]));
    same(library, &("fit", sheet), |by| {
        let (mut slopes, mut curvatures) = (vec![7; n], vec![8; n]);
        (by.fit(knots, &mut slopes, &mut curvatures), slopes, curvatures)
    });
    same(library, &("fit between", ends, sheet), |by| {
        let (mut slopes, mut curvatures) = (vec![7; n], vec![8; n]);
        (by.fit_ends(knots, &mut slopes, &mut curvatures, ends[0], ends[1]), slopes, curvatures)
    });
    same(library, &("fit to slopes", given, sheet), |by| {
        let mut curvatures = vec![8; n];
        (by.fit_slopes(knots, given, &mut curvatures), curvatures)
    });
}

fn same_card(library: &Library, bytes: &[u8]) {
    same(library, &("check", bytes), |by| by.check(bytes));
    same(library, &("swing", bytes), |by| by.swing(bytes));
    let knots = bytes.len() / 16;
    for room in [knots, knots.saturating_sub(1), KNOTS] {
        same(library, &("read", room, bytes), |by| {
            let (mut minutes, mut ordinates, mut slopes, mut curvatures) = (vec![1; room], vec![2; room], vec![3; room], vec![4; room]);
            let answer = by.read(bytes, &mut minutes, &mut ordinates, &mut slopes, &mut curvatures);
            (answer, minutes, ordinates, slopes, curvatures)
        });
        same(library, &("refit", room, bytes), |by| {
            let (mut slopes, mut curvatures) = (vec![3; room], vec![4; room]);
            (by.refit(bytes, &mut slopes, &mut curvatures), slopes, curvatures)
        });
    }
    let minutes = match reference::check(bytes) {
        Ok(card) => card.minutes[0].saturating_sub(1)..=card.minutes[card.minutes.len() - 1].saturating_add(1),
        Err(_) => 0..=0,
    };
    for minute in minutes {
        same(library, &("reading", minute, bytes), |by| by.reading(bytes, minute));
        same(library, &("explain", minute, bytes), |by| by.explain(bytes, minute));
    }
}

fn same_table(library: &Library, bytes: &[u8], from: u16, lengths: [usize; 3]) {
    same(library, &("table", from, lengths, bytes), |by| {
        let mut lists = lengths.map(|n| vec![7; n]);
        let [values, slopes, curvatures] = &mut lists;
        (by.table(bytes, from, values, slopes, curvatures), lists)
    });
}

fn same_written(library: &Library, card: &Numbers, room: usize) {
    let knots = (&card.sheet.minutes[..], &card.sheet.ordinates[..]);
    same(library, &("write", room, card), |by| {
        let mut buffer = vec![9; room];
        (by.write(knots, &card.slopes, &card.curvatures, (card.left, card.right), &mut buffer), buffer)
    });
    same(library, &("write of given slopes", room, card), |by| {
        let mut buffer = vec![9; room];
        (by.write_slopes(knots, &card.slopes, &card.curvatures, &mut buffer), buffer)
    });
}

fn same_mend(library: &Library, sheet: &Sheet, room: usize) {
    let n = sheet.minutes.len();
    same(library, &("mend", room, sheet), |by| {
        let mut lists = (sheet.ordinates.clone(), vec![7; n], vec![8; n], vec![Change { place: 9, old: 10, new: 11 }; room]);
        (by.mend(&sheet.minutes, &mut lists.0, &mut lists.1, &mut lists.2, &mut lists.3), lists)
    });
}

/// The tables that are timed at every count and past it, and tables of any length, values, parts and counts.
fn heats(library: &Library, inputs: &Inputs, random: &mut Random) {
    for values in &inputs.heats {
        for count in 0..=PARTS * values.len() as u16 {
            same(library, &("preheat", count, values), |by| by.preheat(values, PARTS, count));
        }
    }
    for _ in 0..40_000 {
        let most = random.pick(&[5, 500, 20_000, 20_000, 20_001]);
        let values: Vec<i16> = (0..random.below(23)).map(|_| random.within(-most, most) as i16).collect();
        let any_parts = random.within(2, 60) as u16;
        let parts = random.pick(&[2, 2, 4, 60, 60, 59, 61, 1, any_parts]);
        let count = random.below(usize::from(parts) * values.len() + 1) as u16;
        same(library, &("preheat", parts, count, &values), |by| by.preheat(&values, parts, count));
    }
}

fn same_book(library: &Library, book: &[u8], room: u16, card: &[u8]) {
    same(library, &("lookup", room, book), |by| by.book_find(book, room));
    same(library, &("put", room, book, card), |by| {
        let mut book = book.to_vec();
        (by.book_put(&mut book, room, card), book)
    });
    same(library, &("removal", room, book), |by| {
        let mut book = book.to_vec();
        (by.book_remove(&mut book, room), book)
    });
}

/// Full books, cut, with a byte changed or two, in short buffers and long; and small ones changed at each
/// byte.
fn books(library: &Library, inputs: &Inputs, random: &mut Random) {
    let short = &inputs.short_card;
    for (full, card) in inputs.books.iter().zip(&inputs.mixed.bytes) {
        for turn in 0..60 {
            let mut book = full[..random.pick(&[0, 5_000, 14_619, 14_620, 15_663, 15_664, full.len()])].to_vec();
            for _ in 0..turn % 3 {
                if let Some(byte) = book.get_mut(1_044 * random.below(15) + random.pick(&[0, 1, 2, 3, 4, 5, 20, 500])) {
                    *byte ^= 1 << random.below(8);
                }
            }
            same_book(library, &book, random.within(0, 16) as u16, random.pick(&[&short[..], card, &card[1..]]));
        }
    }
    let rooms: [(u16, &[u8]); 3] = [(255, &[1, 2]), (256, short), (700, &[])];
    let mut book = reference::book_bytes(&rooms.map(|(room, card)| (room, card.to_vec())).into());
    book.resize(200, 9);
    for at in 0..book.len() {
        for change in 0..=255 {
            let mut changed = book.clone();
            changed[at] ^= change;
            changed.truncate(random.pick(&[at, at + 1, 200, 200, 200, 200]));
            same_book(library, &changed, random.pick(&[0, 255, 256, 700, 65_535]), short);
        }
    }
}

/// The cards that are timed, whole, cut, and with a bit changed; their tables from any minute on, of any
/// length.
fn cards(library: &Library, cards: &Cards, random: &mut Random) {
    for (card, bytes) in cards.numbers.iter().zip(&cards.bytes) {
        let (first, all) = first_and_count(card);
        for length in [0, 1, all - 1, all, all + 1] {
            same_table(library, bytes, first, [length; 3]);
            same_table(library, bytes, first + random.below(all + 2) as u16, [length; 3]);
            same_table(library, bytes, first, [length, 1, length]);
            same_table(library, &bytes[1..], first, [length; 3]);
        }
        same_card(library, bytes);
        same_card(library, &bytes[..random.below(bytes.len())]);
        for room in [0, bytes.len() - 1, bytes.len(), bytes.len() + 1] {
            same_written(library, card, room);
        }
        for _ in 0..100 {
            let mut changed = bytes.clone();
            changed[random.below(bytes.len())] ^= 1 << random.below(8);
            same_card(library, &changed);
        }
    }
}

fn ends(random: &mut Random, specials: &[f64]) -> [End; 2] {
    [(); 2].map(|()| {
        let code = random.pick(&[0, 1, 2, 0, 1, 2, 3]);
        let end = curves::end(random, code, specials);
        End { code: end.code, slope: end.slope, curvature: end.curvature }
    })
}

pub fn compare(library: &Library, inputs: &Inputs) {
    let random = &mut Random::new(2025);
    cards(library, &inputs.hours, random);
    cards(library, &inputs.mixed, random);
    cards(library, &inputs.sloped, random);
    cards(library, &inputs.jumping, random);
    let specials = curves::given_numbers();
    for n in 0..=KNOTS + 2 {
        for turn in 0..60 {
            let mut sheet = curves::sheet(random, n);
            let mut slopes = curves::slopes(random, &sheet);
            for _ in 0..turn % 3 {
                curves::spoil(random, &mut sheet);
            }
            if turn % 5 == 0 {
                curves::spoil_a_slope(random, &mut slopes);
            }
            same_fit(library, &sheet, ends(random, &specials), &slopes);
            curves::pierce(random, &mut sheet);
            same_mend(library, &sheet, random.pick(&[0, 1, n / 2, n]));
        }
    }
    for _ in 0..2000 {
        let n = random.within(3, 6) as usize;
        let codes = (random.below(3) as u16, random.below(3) as u16);
        let extreme = curves::extreme(random, n);
        let fitted = curves::fitted(random, n, codes.0, codes.1);
        let mut sloped = curves::fitted_to_slopes(random, n);
        sloped.curvatures[random.below(n)] += random.within(-2, 2) as i32;
        sloped.left = random.pick(&[0, 0, 0, 1, 2]);
        for card in curves::large_and_sound(random).iter().chain([&extreme, &fitted, &sloped]) {
            same_card(library, &card.bytes());
            same_card(library, &card.headed(random.pick(&[1, 6, 7])));
            same_written(library, card, random.pick(&[0, 14 + 16 * n, 2000]));
        }
    }
    for _ in 0..100_000 {
        let (top, faulty) = (random.pick(&[200, 200, 201, 255]), random.once_in(2));
        let byte = |random: &mut Random| if faulty && random.once_in(2) { 255 } else { random.within(0, top) as u8 };
        let log: Vec<u8> = (0..random.below(62)).map(|_| byte(random)).collect();
        let first = random.pick(&[9, 65_504, 65_505, 65_506, 65_535]);
        same(library, &("mean", first, &log), |by| by.mean(first, &log));
    }
    heats(library, inputs, random);
    books(library, inputs, random);
}
