//! Times every function of the library, by each C compiler that bench/run found, beside plain Rust that does
//! the same with the same checks, and a table beside Boost's quintic Hermite; all answers are compared first.
//! Rounds of all that is timed take turns; each number is the median round, in nanoseconds for one call, or
//! for what the line names.

mod boost;
mod compare;
mod inputs;
mod library;
mod plain;

use boost::{boost, Curve};
use independent::random::Random;
use inputs::{first_and_count, Cards, INPUTS, KNOTS, LOGS, PARTS, ROOMS, VALUES};
use library::{Change, End, Functions, Library};
use plain::Plain;
use std::hint::black_box;
use std::time::Instant;

const ROUNDS: usize = 1001;
const ROUND_NANOSECONDS: f64 = 2e5;

/// One who is asked over and over, each time of the input with this number.
type Asked<'a> = Box<dyn FnMut(usize) + 'a>;

/// Nanoseconds for one call, over so many turns through the inputs.
fn round(turns: usize, inputs: usize, asked: &mut Asked) -> f64 {
    let start = Instant::now();
    for _ in 0..turns {
        for i in 0..inputs {
            asked(i);
        }
    }
    start.elapsed().as_nanos() as f64 / (turns * inputs) as f64
}

fn median(mut times: Vec<f64>) -> f64 {
    times.sort_by(f64::total_cmp);
    times[times.len() / 2]
}

/// The median round of each, for one of the parts that a call has.
fn timed(parts: f64, inputs: usize, mut asked: Vec<Asked>) -> Vec<f64> {
    let slowest = asked.iter_mut().map(|asked| round(1, inputs, asked)).fold(0.0, f64::max);
    let turns = 1 + (ROUND_NANOSECONDS / (inputs as f64 * slowest)) as usize;
    let mut times = vec![Vec::new(); asked.len()];
    for _ in 0..ROUNDS {
        for (times, asked) in times.iter_mut().zip(&mut asked) {
            times.push(round(turns, inputs, asked));
        }
    }
    times.into_iter().map(|times| median(times) / parts).collect()
}

/// The libraries that are timed, and how their lines are printed.
struct Bench {
    libraries: Vec<(&'static str, &'static Library)>,
}

impl Bench {
    fn header(&self, others: &[String], ratios: &str) {
        print!("{:<44}", "");
        for name in self.libraries.iter().map(|(name, _)| *name).chain(others.iter().map(String::as_str)) {
            print!(" {name:>11}");
        }
        for (name, _) in &self.libraries {
            print!(" {:>13}", format!("{name} / {ratios}"));
        }
        println!();
    }

    fn print(&self, name: &str, times: &[f64], ratio: impl Fn(usize) -> f64) {
        print!("{name:<44}");
        for time in times {
            print!(" {time:>11.1}");
        }
        for (i, time) in times[..self.libraries.len()].iter().enumerate() {
            print!(" {:>13.2}", time / ratio(i));
        }
        println!();
    }

    /// A line of the first table: the libraries, plain Rust, and how they compare.
    fn line<'a>(&self, name: &str, parts: f64, inputs: usize, ask: impl Fn(&'static dyn Functions) -> Asked<'a>) {
        let asked = self.libraries.iter().map(|&(_, library)| library as &dyn Functions).chain([&Plain as &dyn Functions]);
        let times = timed(parts, inputs, asked.map(ask).collect());
        self.print(name, &times, |_| times[times.len() - 1]);
    }

    /// A line of the second: the libraries' tables of all minutes of cards, and Boost's by the same
    /// compilers, for one minute.
    fn beside_boost(&self, name: &str, cards: &Cards) {
        let minutes = mean_count(cards);
        let by: Vec<_> = self.libraries.iter().filter_map(|(name, _)| boost(name)).collect();
        let ours = self.libraries.iter().map(|&(_, library)| table_of(library, cards));
        let theirs = by.iter().map(|&by| boosts_table(by, cards));
        let times = timed(minutes, INPUTS, ours.chain(theirs).collect());
        self.print(name, &times, |i| times[self.libraries.len() + i]);
    }
}

fn mean_count(cards: &Cards) -> f64 {
    cards.numbers.iter().map(|card| first_and_count(card).1).sum::<usize>() as f64 / INPUTS as f64
}

fn longest(cards: &Cards) -> usize {
    cards.numbers.iter().map(|card| first_and_count(card).1).max().unwrap_or(0)
}

fn table_of<'a>(by: &'static dyn Functions, cards: &'a Cards) -> Asked<'a> {
    let mut columns = [(); 3].map(|()| vec![0; longest(cards)]);
    Box::new(move |i| {
        let (first, all) = first_and_count(&cards.numbers[i]);
        let [values, slopes, curvatures] = &mut columns;
        black_box(by.table(black_box(&cards.bytes[i]), first, &mut values[..all], &mut slopes[..all], &mut curvatures[..all]));
        black_box(&columns);
    })
}

/// The curves are laid before; what is timed is the three numbers at every minute.
fn boosts_table(by: boost::Boost, cards: &Cards) -> Asked<'_> {
    let curves: Vec<Curve> = cards.numbers.iter().map(|card| Curve::of(by, card)).collect();
    let mut columns = [(); 3].map(|()| vec![0.0; longest(cards)]);
    Box::new(move |i| {
        let (first, all) = first_and_count(&cards.numbers[i]);
        let [values, slopes, curvatures] = &mut columns;
        curves[i].table(black_box(first), [&mut values[..all], &mut slopes[..all], &mut curvatures[..all]]);
        black_box(&columns);
    })
}

/// Boost's numbers, rounded, are the library's: but for its own rounding errors, where a number is all but at
/// a half.
fn compare_boost(by: boost::Boost, library: &Library, cards: &Cards) {
    for (card, bytes) in cards.numbers.iter().zip(&cards.bytes) {
        let (first, all) = first_and_count(card);
        let (mut ours, mut theirs) = ([(); 3].map(|()| vec![0; all]), [(); 3].map(|()| vec![0.0; all]));
        let [values, slopes, curvatures] = &mut ours;
        library.table(bytes, first, values, slopes, curvatures);
        Curve::of(by, card).table(first, theirs.each_mut().map(|list| &mut list[..]));
        for (list, (ours, theirs)) in ours.iter().zip(&theirs).enumerate() {
            let unit = if list == 0 { 1.0 } else { 4096.0 };
            for (minute, (ours, theirs)) in ours.iter().zip(theirs).enumerate() {
                assert!((f64::from(*ours) - unit * theirs).abs() < 0.5 + 1e-6, "Boost's list {list} at {minute} of {card:?}: {theirs}");
            }
        }
    }
}

fn main() {
    let inputs = &inputs::inputs(&mut Random::new(2024));
    let bench = Bench { libraries: library::libraries() };
    for (_, library) in &bench.libraries {
        compare::compare(library, inputs);
    }
    println!("the answers are plain Rust's; nanoseconds, and how many times plain Rust's\n");
    bench.header(&["plain Rust".into()], "plain");

    let hours = &inputs.hours;
    bench.line("mean of 60 bytes, of 4,096 logs in turn", 1.0, LOGS, |by| {
        Box::new(|i| {
            black_box(by.mean(black_box(600), black_box(&inputs.logs[i])));
        })
    });
    bench.line("mean of 60 bytes, the same 16 logs", 1.0, INPUTS, |by| {
        Box::new(|i| {
            black_box(by.mean(black_box(600), black_box(&inputs.logs[i])));
        })
    });
    let cards = &inputs.mixed;
    bench.line("fit of 64 knots", 1.0, INPUTS, |by| {
        let mut lists = ([0; KNOTS], [0; KNOTS]);
        Box::new(move |i| {
            let sheet = black_box(&cards.numbers[i].sheet);
            black_box(by.fit((&sheet.minutes, &sheet.ordinates), &mut lists.0, &mut lists.1));
            black_box(&lists);
        })
    });
    bench.line("fit of 64 knots between free ends", 1.0, INPUTS, |by| {
        let mut lists = ([0; KNOTS], [0; KNOTS]);
        Box::new(move |i| {
            let sheet = black_box(&cards.numbers[i].sheet);
            black_box(by.fit_ends((&sheet.minutes, &sheet.ordinates), &mut lists.0, &mut lists.1, End::default(), End::default()));
            black_box(&lists);
        })
    });
    let sloped = &inputs.sloped;
    bench.line("fit of 64 knots to given slopes", 1.0, INPUTS, |by| {
        let mut curvatures = [0; KNOTS];
        Box::new(move |i| {
            let card = black_box(&sloped.numbers[i]);
            black_box(by.fit_slopes((&card.sheet.minutes, &card.sheet.ordinates), &card.slopes, &mut curvatures));
            black_box(&curvatures);
        })
    });
    bench.line("card of 64 knots written", 1.0, INPUTS, |by| {
        let mut buffer = [0; 14 + 16 * KNOTS];
        Box::new(move |i| {
            let card = black_box(&cards.numbers[i]);
            let knots = (&card.sheet.minutes[..], &card.sheet.ordinates[..]);
            black_box(by.write(knots, &card.slopes, &card.curvatures, (card.left, card.right), &mut buffer));
            black_box(&buffer);
        })
    });
    bench.line("card of 64 knots with given slopes written", 1.0, INPUTS, |by| {
        let mut buffer = [0; 14 + 16 * KNOTS];
        Box::new(move |i| {
            let card = black_box(&sloped.numbers[i]);
            let knots = (&card.sheet.minutes[..], &card.sheet.ordinates[..]);
            black_box(by.write_slopes(knots, &card.slopes, &card.curvatures, &mut buffer));
            black_box(&buffer);
        })
    });
    for (name, cards) in [("check of a card of 64 knots", cards), ("check of 64 knots with given slopes", sloped)] {
        bench.line(name, 1.0, INPUTS, |by| {
            Box::new(|i| {
                black_box(by.check(black_box(&cards.bytes[i])));
            })
        });
    }
    bench.line("card of 64 knots read into lists", 1.0, INPUTS, |by| {
        let mut lists = ([0; KNOTS], [0; KNOTS], [0; KNOTS], [0; KNOTS]);
        Box::new(move |i| {
            black_box(by.read(black_box(&cards.bytes[i]), &mut lists.0, &mut lists.1, &mut lists.2, &mut lists.3));
            black_box(&lists);
        })
    });
    for (name, cards) in [("reading off 64 knots, gaps of 60", hours), ("reading off 64 knots, gaps of 20 to 60", cards)] {
        bench.line(name, 1.0, INPUTS, |by| {
            Box::new(|i| {
                black_box(by.reading(black_box(&cards.bytes[i]), black_box(cards.minutes[i])));
            })
        });
    }
    for (name, cards) in [("a minute of a table, gaps of 60", hours), ("a minute of a table, gaps of 20 to 60", cards)] {
        bench.line(name, mean_count(cards), INPUTS, |by| table_of(by, cards));
    }
    for (name, cards) in [("explanation off 64 knots", cards), ("explanation of a jump at the last of 64", &inputs.jumping)] {
        bench.line(name, 1.0, INPUTS, |by| {
            Box::new(|i| {
                black_box(by.explain(black_box(&cards.bytes[i]), black_box(cards.minutes[i])));
            })
        });
    }
    for (name, cards) in [("a minute of a swing, gaps of 60", hours), ("a minute of a swing, gaps of 20 to 60", cards)] {
        bench.line(name, mean_count(cards), INPUTS, |by| {
            Box::new(|i| {
                black_box(by.swing(black_box(&cards.bytes[i])));
            })
        });
    }
    // A value each time from the table anew, at every count of it in turn.
    for (name, values) in [("pre-heater's value, 20 values, 60 parts", VALUES), ("pre-heater's value, 3 values, 60 parts", 3)] {
        let counts = PARTS * (values as u16 - 1) + 1;
        bench.line(name, counts.into(), INPUTS, |by| {
            Box::new(move |i| {
                for count in 0..counts {
                    black_box(by.preheat(black_box(&inputs.heats[i][..values]), black_box(PARTS), black_box(count)));
                }
            })
        });
    }
    for (name, cards) in [("fresh fit of a card of 64 knots", cards), ("fresh fit of 64 knots with given slopes", sloped)] {
        bench.line(name, 1.0, INPUTS, |by| {
            let mut lists = ([0; KNOTS], [0; KNOTS]);
            Box::new(move |i| {
                black_box(by.refit(black_box(&cards.bytes[i]), &mut lists.0, &mut lists.1));
                black_box(&lists);
            })
        });
    }
    bench.line("mending of 64 knots, a fifth of them holes", 1.0, INPUTS, |by| {
        let mut lists = ([0; KNOTS], [0; KNOTS], [0; KNOTS], [Change::default(); KNOTS]);
        Box::new(move |i| {
            let sheet = black_box(&inputs.sheets[i]);
            lists.0.copy_from_slice(&sheet.ordinates);
            black_box(by.mend(&sheet.minutes, &mut lists.0, &mut lists.1, &mut lists.2, &mut lists.3));
            black_box(&lists);
        })
    });
    bench.line("lookup of the last of 14 rooms of 64 knots", 1.0, INPUTS, |by| {
        Box::new(|i| {
            black_box(by.book_find(black_box(&inputs.books[i]), black_box(ROOMS)));
        })
    });
    // A short card for the first room and a full one again: the other thirteen rooms move up and down.
    bench.line("put for the first of 14 rooms of 64 knots", 2.0, INPUTS, |by| {
        let mut books = inputs.books.clone();
        Box::new(move |i| {
            for card in [&inputs.short_card, &cards.bytes[i]] {
                black_box(by.book_put(black_box(&mut books[i]), black_box(1), black_box(card)));
            }
        })
    });
    // The first room each time, so that all that are left move up; the book is laid anew for every fourteen.
    bench.line("first room taken out, of 14 down to the last", ROOMS.into(), INPUTS, |by| {
        let mut books = inputs.books.clone();
        Box::new(move |i| {
            books[i].copy_from_slice(&inputs.books[i]);
            for room in 1..=ROOMS {
                black_box(by.book_remove(black_box(&mut books[i]), black_box(room)));
            }
        })
    });

    let boosts: Vec<String> =
        bench.libraries.iter().filter(|(name, _)| boost(name).is_some()).map(|(name, _)| format!("Boost, {name}")).collect();
    if boosts.len() < bench.libraries.len() {
        println!("\nBoost's headers are not installed: the table was not timed beside it");
        return;
    }
    for (name, library) in &bench.libraries {
        for cards in [hours, cards] {
            compare_boost(boost(name).expect("it is there"), library, cards);
        }
    }
    println!("\nBoost's numbers, rounded, are the library's; nanoseconds, and how many times Boost's by the same compiler\n");
    bench.header(&boosts, "Boost");
    bench.beside_boost("a minute of a table, gaps of 60", hours);
    bench.beside_boost("a minute of a table, gaps of 20 to 60", cards);
}
