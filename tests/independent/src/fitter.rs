//! The fitter program beside the reference's listing, on the cases of tests/fitter/cases.txt, which says how they are written, and on random
//! records of knots and logs. Each input goes to a process of its own, through a pipe.

use crate::lines::{hexadecimal, parse};
use crate::random::Random;
use crate::reference;
use std::collections::BTreeMap;
use std::io::{self, Write};
use std::process::{Command, Stdio};
use std::sync::atomic::{AtomicUsize, Ordering};
use std::sync::Mutex;
use std::thread;

/// The numbers that the inputs have to meet, so that inputs which no longer reach one of them are seen.
const TO_BE_MET: [u32; 13] = [0, 14, 1, 2, 16, 12, 13, 23, 19, 4, 5, 6, 9];

/// The bytes of records, and the minute of the last one.
#[derive(Default)]
struct Records {
    bytes: Vec<u8>,
    minute: u16,
}

impl Records {
    fn knot(&mut self, minute: u16, ordinate: i16) {
        self.bytes.extend([4, 0, 4, 0]);
        self.bytes.extend(minute.to_le_bytes());
        self.bytes.extend(ordinate.to_le_bytes());
        self.minute = minute;
    }

    fn log(&mut self, first: u16, log: &[u8]) {
        self.bytes.extend((2 + log.len() as u16).to_le_bytes());
        self.bytes.extend([7, 0]);
        self.bytes.extend(first.to_le_bytes());
        self.bytes.extend(log);
        self.minute = first;
    }

    fn minute_of(&self, word: &str) -> Result<u16, String> {
        match word.strip_prefix('+') {
            Some(step) => Ok(self.minute + parse::<u16>(step)?),
            None => parse(word),
        }
    }

    /// What a column of a case stands for.
    fn column(&mut self, words: &[&str]) -> Result<(), String> {
        match words {
            [] => {}
            [times, "times", record @ ..] => {
                for _ in 0..parse(times)? {
                    self.column(record)?;
                }
            }
            ["knot", minute, ordinate] => self.knot(self.minute_of(minute)?, parse(ordinate)?),
            ["log", minute, log @ ..] => self.log(self.minute_of(minute)?, &bytes_of(log)?),
            ["bytes", bytes @ ..] => {
                for byte in bytes {
                    self.bytes.push(hexadecimal(byte)?);
                }
            }
            ["cut", bytes] => self.bytes.truncate(self.bytes.len() - parse::<usize>(bytes)?),
            _ => return Err(format!("there is no record {}", words.join(" "))),
        }
        Ok(())
    }
}

/// The bytes of a log, of which 7*3 is three.
fn bytes_of(words: &[&str]) -> Result<Vec<u8>, String> {
    let mut bytes = Vec::new();
    for word in words {
        let (byte, times) = word.split_once('*').unwrap_or((word, "1"));
        bytes.resize(bytes.len() + parse::<usize>(times)?, parse(byte)?);
    }
    Ok(bytes)
}

struct Case {
    label: String,
    input: Vec<u8>,
}

fn cases(text: &str) -> Result<Vec<Case>, String> {
    let mut cases = Vec::new();
    for (number, line) in text.lines().enumerate().filter(|(_, line)| !line.starts_with('#') && !line.trim().is_empty()) {
        let mut columns = line.split('|');
        let label = columns.next().unwrap_or("").trim().to_string();
        let mut records = Records::default();
        for column in columns {
            let words: Vec<&str> = column.split_whitespace().collect();
            records.column(&words).map_err(|words| format!("line {}: {words}", number + 1))?;
        }
        cases.push(Case { label, input: records.bytes });
    }
    Ok(cases)
}

/// A log of this length about a good byte, with some faults, about half of it or none, and now and then a byte that may mean nothing.
fn random_log(random: &mut Random, length: usize) -> Vec<u8> {
    let about = random.within(20, 60);
    let mut log: Vec<u8> = (0..length).map(|_| random.within(about - 9, about + 9) as u8).collect();
    let faults = match random.below(4) {
        0 => 0,
        1 => random.within(0, 1) as usize + length.saturating_sub(1) / 2,
        _ => random.below(length / 3 + 1),
    };
    log[..faults.min(length)].fill(255);
    random.shuffle(&mut log);
    if random.once_in(60) && length > 0 {
        log[random.below(length)] = random.next() as u8;
    }
    log
}

/// Records that mostly rise and mostly are few, knots and logs, some of them cut or with a bit changed.
fn random_input(random: &mut Random) -> Vec<u8> {
    let mut records = Records::default();
    let mut middle = 30 + random.pick(&[0, 100, 65_400]);
    for _ in 0..random.pick(&[2, 3, 3, 4, 5, 7, 12, 40, 64, 65]) {
        middle += if random.once_in(40) { random.pick(&[0, 1, 61]) } else { random.within(12, 60) };
        let minute = middle.min(65_535) as u16;
        if random.once_in(2) {
            records.knot(minute, random.within(800, 3_200) as i16);
        } else {
            let length = if random.once_in(60) { random.pick(&[0, 61, 300]) } else { random.within(1, 60) as usize };
            let half = if random.once_in(12) { 0 } else { length / 2 };
            records.log(minute - half.min(30) as u16, &random_log(random, length));
        }
    }
    let mut bytes = records.bytes;
    if random.once_in(10) {
        bytes.truncate(random.below(bytes.len()));
    } else if random.once_in(10) {
        let at = random.below(bytes.len());
        bytes[at] ^= 1 << random.below(8);
    }
    bytes
}

/// What the program prints. It may stop reading before the end.
fn printed(command: &[&str], input: &[u8]) -> io::Result<String> {
    let mut child = Command::new(command[0]).args(&command[1..]).stdin(Stdio::piped()).stdout(Stdio::piped()).spawn()?;
    let mut pipe = child.stdin.take().expect("its input is a pipe");
    match pipe.write_all(input) {
        Err(error) if error.kind() != io::ErrorKind::BrokenPipe => return Err(error),
        _ => drop(pipe),
    }
    let output = child.wait_with_output()?;
    if !output.status.success() {
        return Err(io::Error::other(output.status.to_string()));
    }
    Ok(String::from_utf8_lossy(&output.stdout).into_owned())
}

/// The number of a listing: 0, or that of its refusal.
fn number(listing: &str) -> u32 {
    listing
        .strip_prefix("refused ")
        .and_then(|rest| rest.split(' ').next())
        .map_or(0, |word| word.parse().expect("the reference writes numbers"))
}

/// What is told of an input on which the program is not the reference.
fn difference(case: &Case, wanted: &str, ours: io::Result<String>) -> Option<String> {
    let shown = |listing: &str| listing.lines().rev().take(3).collect::<Vec<_>>().join(" / ");
    match ours {
        Ok(ours) if ours == wanted => None,
        Ok(ours) => {
            Some(format!("{}: its last lines, from the end\n  fitter    {}\n  reference {}", case.label, shown(&ours), shown(wanted)))
        }
        Err(error) => Some(format!("{}: {error}", case.label)),
    }
}

/// Runs the program of this command on the cases of a text and on so many random inputs, as many at a time as there are processors; whether it
/// prints what the reference does, and every number was met.
pub fn run(text: &str, random: usize, command: &[&str]) -> Result<bool, String> {
    let mut cases = cases(text)?;
    let (named, mut numbers) = (cases.len(), Random::new(4));
    cases.extend((0..random).map(|count| Case { label: format!("random input {count}"), input: random_input(&mut numbers) }));
    let (next, differ, met) = (AtomicUsize::new(0), AtomicUsize::new(0), Mutex::new(BTreeMap::<u32, usize>::new()));
    thread::scope(|scope| {
        for _ in 0..thread::available_parallelism().map_or(1, usize::from) {
            scope.spawn(|| {
                while let Some(case) = cases.get(next.fetch_add(1, Ordering::Relaxed)) {
                    let wanted = reference::fitter(&case.input);
                    *met.lock().expect("no other thread failed").entry(number(&wanted)).or_default() += 1;
                    if let Some(words) = difference(case, &wanted, printed(command, &case.input)) {
                        differ.fetch_add(1, Ordering::Relaxed);
                        println!("{words}");
                    }
                }
            });
        }
    });
    let (differ, met) = (differ.into_inner(), met.into_inner().expect("no thread failed"));
    let unmet: Vec<u32> = TO_BE_MET.into_iter().filter(|number| !met.contains_key(number)).collect();
    let counts: Vec<String> = met.iter().map(|(number, times)| format!("{number}: {times}")).collect();
    println!("the fitter on {named} cases and {random} random inputs: {differ} differ; answers by number: {}", counts.join(", "));
    if !unmet.is_empty() {
        println!("none of them met {unmet:?}");
    }
    Ok(differ == 0 && unmet.is_empty())
}
