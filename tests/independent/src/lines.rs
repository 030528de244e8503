//! The lines of the program `cases`: the questions of tests/cases/questions.txt, which says how they are written, answered by the
//! reference. The program's stored output is held against these.

use crate::reference::*;
use std::collections::BTreeMap;
use std::fmt::{Display, Write as _};
use std::str::FromStr;

/// A line's fields, each as its words.
type Fields = BTreeMap<String, Vec<String>>;

const NAMES: [&str; 19] = [
    "minutes",
    "ordinates",
    "slopes",
    "curvatures",
    "ends",
    "head",
    "left",
    "right",
    "minute",
    "log",
    "bytes",
    "length",
    "room",
    "changes",
    "places",
    "values",
    "parts",
    "count",
    "place",
];

pub(crate) fn parse<T: FromStr>(word: &str) -> Result<T, String> {
    word.parse().map_err(|_| format!("{word} is no number here"))
}

pub(crate) fn hexadecimal(word: &str) -> Result<u8, String> {
    u8::from_str_radix(word, 16).map_err(|_| format!("{word} is no byte in hexadecimal"))
}

/// The words that 7*3 or 0..3 stands for.
fn written_out(word: &str) -> Result<Vec<String>, String> {
    if let Some((number, times)) = word.split_once('*') {
        return Ok(vec![number.to_string(); parse(times)?]);
    }
    if let Some((from, to)) = word.split_once("..") {
        return Ok((parse::<u16>(from)?..=parse(to)?).map(|number| number.to_string()).collect());
    }
    Ok(vec![word.to_string()])
}

/// The fields of a line, with those of a line above that it is like.
fn fields_of(columns: &[&str], above: &BTreeMap<&str, Fields>) -> Result<Fields, String> {
    let mut fields = Fields::new();
    for column in columns {
        let (name, rest) = column.split_once(' ').unwrap_or((column, ""));
        if name == "like" {
            fields.extend(above.get(rest).ok_or(format!("no line above has the label {rest}"))?.clone());
        } else if NAMES.contains(&name) {
            let words: Result<Vec<_>, _> = rest.split_whitespace().map(written_out).collect();
            fields.insert(name.to_string(), words?.concat());
        } else {
            return Err(format!("there is no field {name}"));
        }
    }
    Ok(fields)
}

/// A quotient of two whole numbers, each of them exact.
fn given_number(word: &str) -> Result<f64, String> {
    let (numerator, divisor) = word.split_once('/').unwrap_or((word, "1"));
    Ok(parse::<i64>(numerator)? as f64 / parse::<i64>(divisor)? as f64)
}

/// So many places of a list: what is there, and 7s behind.
fn places_of<T: Copy + From<u8>>(list: &[T], places: usize) -> Vec<T> {
    (0..places).map(|place| list.get(place).copied().unwrap_or(7.into())).collect()
}

/// What a line asks about.
struct Asked {
    minutes: Vec<u16>,
    ordinates: Vec<i16>,
    slopes: Vec<i32>,
    curvatures: Vec<i32>,
    ends: Option<[u16; 2]>,
    left: [f64; 2],
    right: [f64; 2],
    minute: u16,
    log: Vec<u8>,
    card: Vec<u8>,
    room: usize,
    changes: usize,
    places: [usize; 4],
    values: Vec<i16>,
    parts: u16,
    count: u16,
    place: u16,
}

impl Asked {
    fn of(fields: &Fields) -> Result<Asked, String> {
        let minutes: Vec<u16> = list(fields, "minutes")?;
        let n = minutes.len();
        let ordinates = counted(fields, "ordinates")?.unwrap_or(vec![0; n]);
        let slopes = counted(fields, "slopes")?.unwrap_or(vec![0; n]);
        let curvatures = counted(fields, "curvatures")?.unwrap_or(vec![0; n]);
        if [ordinates.len(), slopes.len(), curvatures.len()] != [n; 3] {
            return Err("the knots' lists differ in length".to_string());
        }
        let ends = so_many(fields, "ends", parse)?;
        let [left, right] = ends.unwrap_or([0, 0]);
        let mut card = match fields.get("bytes") {
            Some(words) => words.iter().map(|word| hexadecimal(word)).collect::<Result<_, _>>()?,
            None => {
                let head = so_many(fields, "head", parse)?.map_or(Kind::Quintic.head(), |[head]| head);
                headed_bytes(head, &minutes, &ordinates, &slopes, &curvatures, left, right)
            }
        };
        if let Some([length]) = so_many(fields, "length", parse)? {
            card.resize(length, 0);
        }
        Ok(Asked {
            ends,
            left: so_many(fields, "left", given_number)?.unwrap_or([0.0; 2]),
            right: so_many(fields, "right", given_number)?.unwrap_or([0.0; 2]),
            minute: so_many(fields, "minute", parse)?.map_or(0, |[minute]| minute),
            log: list(fields, "log")?,
            card,
            room: so_many(fields, "room", parse)?.map_or(card_size(n), |[room]| room),
            changes: so_many(fields, "changes", parse)?.map_or(n, |[changes]| changes),
            places: so_many(fields, "places", parse)?.unwrap_or([n; 4]),
            values: list(fields, "values")?,
            parts: so_many(fields, "parts", parse)?.map_or(0, |[parts]| parts),
            count: so_many(fields, "count", parse)?.map_or(0, |[count]| count),
            place: so_many(fields, "place", parse)?.map_or(0, |[place]| place),
            minutes,
            ordinates,
            slopes,
            curvatures,
        })
    }

    fn mean(&self) -> String {
        let answer = mean(self.minute, &self.log);
        let Mean { minute, ordinate, good, faults } = answer.unwrap_or(Mean { minute: 0, ordinate: 0, good: 0, faults: 0 });
        format!("{}; minute {minute}; ordinate {ordinate}; good {good}; faults {faults}", verdict(&answer))
    }

    fn fit(&self) -> String {
        let [x, y, m, c] = self.places;
        let (minutes, ordinates) = (places_of(&self.minutes, x), places_of(&self.ordinates, y));
        let (mut slopes, mut curvatures) = (vec![7; m], vec![7; c]);
        let answer = match self.ends {
            None => fit(&minutes, &ordinates, &mut slopes, &mut curvatures),
            Some(codes) => {
                let end = |code: u16, [slope, curvature]: [f64; 2]| End { code, slope, curvature };
                fit_ends(&minutes, &ordinates, &mut slopes, &mut curvatures, end(codes[0], self.left), end(codes[1], self.right))
            }
        };
        verdict(&answer) + &shown("slopes", &slopes) + &shown("curvatures", &curvatures)
    }

    fn fit_slopes(&self) -> String {
        let [x, y, m, c] = self.places;
        let (minutes, ordinates) = (places_of(&self.minutes, x), places_of(&self.ordinates, y));
        let mut curvatures = vec![7; c];
        let answer = fit_slopes(&minutes, &ordinates, &places_of(&self.slopes, m), &mut curvatures);
        verdict(&answer) + &shown("curvatures", &curvatures)
    }

    fn write(&self) -> String {
        let [x, y, m, c] = self.places;
        let [left, right] = self.ends.unwrap_or([0, 0]);
        let mut buffer = vec![7; self.room];
        let answer = write(
            &places_of(&self.minutes, x),
            &places_of(&self.ordinates, y),
            &places_of(&self.slopes, m),
            &places_of(&self.curvatures, c),
            left,
            right,
            &mut buffer,
        );
        written(&answer, &buffer)
    }

    fn write_slopes(&self) -> String {
        let [x, y, m, c] = self.places;
        let mut buffer = vec![7; self.room];
        let answer = write_slopes(
            &places_of(&self.minutes, x),
            &places_of(&self.ordinates, y),
            &places_of(&self.slopes, m),
            &places_of(&self.curvatures, c),
            &mut buffer,
        );
        written(&answer, &buffer)
    }

    fn check(&self) -> String {
        head(&check(&self.card))
    }

    fn read(&self) -> String {
        let [x, y, m, c] = self.places;
        let (mut minutes, mut ordinates, mut slopes, mut curvatures) = (vec![7; x], vec![7; y], vec![7; m], vec![7; c]);
        let answer = read(&self.card, &mut minutes, &mut ordinates, &mut slopes, &mut curvatures);
        head(&answer)
            + &shown("minutes", &minutes)
            + &shown("ordinates", &ordinates)
            + &shown("slopes", &slopes)
            + &shown("curvatures", &curvatures)
    }

    fn reading(&self) -> String {
        let answer = reading(&self.card, self.minute);
        let shown = answer.unwrap_or(Reading { value: 0, slope: 0, curvature: 0, looks: 0 });
        let Reading { value, slope, curvature, looks } = shown;
        format!("{}; value {value}; slope {slope}; curvature {curvature}; looks {looks}", verdict(&answer))
    }

    fn explain(&self) -> String {
        let answer = explain(&self.card, self.minute);
        let Explained { gap, minutes, parts, denominator } = answer.unwrap_or_default();
        let (knot, Jump { order, size, allowed }) = match answer {
            Err((Refusal { place, .. }, Some(jump))) => (place, jump),
            _ => (0, Jump { order: 0, size: 0, allowed: 0 }),
        };
        let verdict = verdict(&answer.map_err(|(refusal, _)| refusal));
        format!("{verdict}; gap {gap}; minutes {minutes}{}; denominator {denominator}", shown("parts", &parts))
            + &format!("; knot {knot}; order {order}; jump {size}; allowance {allowed}")
    }

    fn swing(&self) -> String {
        let answer = swing(&self.card);
        let Swing { knot, minute, below, above } = answer.unwrap_or_default();
        format!("{}; knot {knot}; minute {minute}; below {below}; above {above}", verdict(&answer))
    }

    fn preheat(&self) -> String {
        let answer = preheat(&self.values, self.parts, self.count);
        format!("{}; value {}", verdict(&answer), answer.unwrap_or(0))
    }

    fn unknown(&self) -> String {
        let answer = unknown_at(&self.values, self.place);
        let (unknown, scale) = answer.unwrap_or((0, 0));
        format!("{}; unknown {unknown}; scale {scale}", verdict(&answer))
    }

    fn mend(&self) -> String {
        let [x, y, m, c] = self.places;
        let (minutes, mut ordinates) = (places_of(&self.minutes, x), places_of(&self.ordinates, y));
        let (mut slopes, mut curvatures) = (vec![7; m], vec![7; c]);
        let mut changes = vec![Change { place: 7, old: 7, new: 7 }; self.changes];
        let answer = mend(&minutes, &mut ordinates, &mut slopes, &mut curvatures, &mut changes);
        let count = answer.unwrap_or(0);
        let mut text = format!("{}; count {count}", verdict(&answer));
        for Change { place, old, new } in &changes[..count as usize] {
            let _ = write!(text, "; change {place} {old} {new}");
        }
        text + &shown("ordinates", &ordinates) + &shown("slopes", &slopes) + &shown("curvatures", &curvatures)
    }

    fn answer(&self, word: &str) -> Result<String, String> {
        match word {
            "mean" => Ok(self.mean()),
            "fit" => Ok(self.fit()),
            "fit_slopes" => Ok(self.fit_slopes()),
            "write" => Ok(self.write()),
            "write_slopes" => Ok(self.write_slopes()),
            "check" => Ok(self.check()),
            "read" => Ok(self.read()),
            "reading" => Ok(self.reading()),
            "explain" => Ok(self.explain()),
            "swing" => Ok(self.swing()),
            "preheat" => Ok(self.preheat()),
            "unknown" => Ok(self.unknown()),
            "mend" => Ok(self.mend()),
            _ => Err(format!("nothing is asked by {word}")),
        }
    }
}

/// The numbers of a field, none where it is left out.
fn list<T: FromStr>(fields: &Fields, name: &str) -> Result<Vec<T>, String> {
    Ok(counted(fields, name)?.unwrap_or_default())
}

fn counted<T: FromStr>(fields: &Fields, name: &str) -> Result<Option<Vec<T>>, String> {
    fields.get(name).map(|words| words.iter().map(|word| parse(word)).collect()).transpose()
}

/// The numbers of a field that has so many.
fn so_many<T, const N: usize>(fields: &Fields, name: &str, number: fn(&str) -> Result<T, String>) -> Result<Option<[T; N]>, String> {
    let Some(words) = fields.get(name) else { return Ok(None) };
    let numbers = words.iter().map(|word| number(word)).collect::<Result<Vec<T>, String>>()?;
    numbers.try_into().map(Some).map_err(|_| format!("{name} has not {N} numbers"))
}

fn verdict<T>(answer: &Result<T, Refusal>) -> String {
    match answer {
        Ok(_) => "ok".to_string(),
        Err(Refusal { number, place }) => format!("refused {number} at {place}"),
    }
}

fn head(answer: &Result<Card, Refusal>) -> String {
    let (knots, left, right, kind) =
        answer.as_ref().map_or((0, 0, 0, 0), |card| (card.minutes.len(), card.left, card.right, card.kind.head()));
    format!("{}; knots {knots}; left {left}; right {right}; kind {kind}", verdict(answer))
}

fn written(answer: &Result<u32, Refusal>, buffer: &[u8]) -> String {
    let bytes: Vec<String> = buffer.iter().map(|byte| format!("{byte:02x}")).collect();
    format!("{}; bytes {}", verdict(answer), answer.as_ref().map_or(0, |bytes| *bytes)) + &shown("buffer", &bytes)
}

fn shown<T: Display>(name: &str, list: &[T]) -> String {
    list.iter().fold(format!("; {name}"), |text, element| format!("{text} {element}"))
}

/// The answers to a text of questions, or what is wrong with a line of it.
pub fn answers(text: &str) -> Result<String, String> {
    let mut answers = String::new();
    let mut above = BTreeMap::new();
    for (number, line) in text.lines().enumerate().filter(|(_, line)| !line.starts_with('#') && !line.trim().is_empty()) {
        let wrong = |words: String| format!("line {}: {words}", number + 1);
        let columns: Vec<&str> = line.split('|').map(str::trim).collect();
        let [asked, label, columns @ ..] = &columns[..] else { return Err(wrong("there is no label".to_string())) };
        if *asked == "heading" {
            let _ = writeln!(answers, "{label}");
            continue;
        }
        let fields = fields_of(columns, &above).map_err(wrong)?;
        let question = Asked::of(&fields).map_err(wrong)?;
        for word in asked.split_whitespace() {
            let _ = writeln!(answers, "{label}: {word} {}", question.answer(word).map_err(wrong)?);
        }
        if above.insert(*label, fields).is_some() {
            return Err(wrong(format!("another line has the label {label}")));
        }
    }
    Ok(answers)
}
