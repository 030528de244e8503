//! The library's functions by a program of its own, for what this process cannot link: the archive on another
//! processor than x86-64, or the library compiled for another one. Each call goes to tests/c/far.c, which is
//! linked with the library. KAIHVETO_FAR names that program, and KAIHVETO_RUN the command that runs it, where
//! it does not run by itself.

use crate::boundary::{Change, Checked, Explained, Fitted, Mean, Mended, Preheated, Reading, Refitted, Spot, Swing, Tabled, Used, Written};
use std::env;
use std::ffi::{OsStr, OsString};
use std::io::{BufReader, Read, Write};
use std::mem::{size_of, MaybeUninit};
use std::process::{ChildStdin, ChildStdout, Command, Stdio};
use std::sync::{Mutex, MutexGuard, OnceLock};

struct Far {
    calls: ChildStdin,
    answers: BufReader<ChildStdout>,
}

static FAR: Mutex<Option<Far>> = Mutex::new(None);

fn named(variable: &str) -> Option<OsString> {
    env::var_os(variable).filter(|named| !named.is_empty())
}

/// The far program. Where there is one it answers, and no archive that is linked.
pub fn program() -> Option<&'static OsStr> {
    static PROGRAM: OnceLock<Option<OsString>> = OnceLock::new();
    PROGRAM.get_or_init(|| named("KAIHVETO_FAR")).as_deref()
}

fn start() -> Far {
    let program = program().expect("KAIHVETO_FAR names the far program");
    let mut command = match named("KAIHVETO_RUN") {
        Some(runner) => {
            let mut command = Command::new(runner);
            command.arg(program);
            command
        }
        None => Command::new(program),
    };
    let child = command.stdin(Stdio::piped()).stdout(Stdio::piped()).spawn();
    let mut child = child.expect("the far program starts");
    let calls = child.stdin.take().expect("its input is a pipe");
    let answers = BufReader::new(child.stdout.take().expect("its output is a pipe"));
    Far { calls, answers }
}

/// A call, as far.c takes it.
struct Call(Vec<u8>);

impl Call {
    fn new(letter: u8) -> Call {
        Call(vec![letter])
    }

    fn number(mut self, n: u64) -> Call {
        self.0.extend_from_slice(&n.to_le_bytes());
        self
    }

    fn real(self, x: f64) -> Call {
        self.number(x.to_bits())
    }

    /// `first` points to `length` elements, as the caller of each function below vouches.
    unsafe fn list<T>(self, first: *const T, length: usize) -> Call {
        let mut call = self.number(length as u64);
        call.0.extend_from_slice(std::slice::from_raw_parts(first.cast::<u8>(), length * size_of::<T>()));
        call
    }

    fn made(self) -> Answer {
        let mut far = FAR.lock().expect("no call before this one failed");
        far.get_or_insert_with(start).calls.write_all(&self.0).expect("the far program takes calls");
        Answer(far)
    }
}

struct Answer(MutexGuard<'static, Option<Far>>);

impl Answer {
    fn bytes(&mut self, to: &mut [u8]) {
        self.0.as_mut().expect("it was started").answers.read_exact(to).expect("the far program answers");
    }

    /// T is one of the answers, of which any bytes are one.
    unsafe fn answer<T>(&mut self) -> T {
        let mut answer = MaybeUninit::<T>::zeroed();
        self.bytes(std::slice::from_raw_parts_mut(answer.as_mut_ptr().cast::<u8>(), size_of::<T>()));
        answer.assume_init()
    }

    unsafe fn list<T>(&mut self, first: *mut T, length: usize) {
        self.bytes(std::slice::from_raw_parts_mut(first.cast::<u8>(), length * size_of::<T>()));
    }
}

pub unsafe fn kaihveto_mean(first_minute: u16, log: *const u8, log_length: usize) -> Mean {
    Call::new(b'm').number(first_minute.into()).list(log, log_length).made().answer()
}

unsafe fn fitted(call: Call, slopes: *mut i32, slopes_length: usize, curvatures: *mut i32, curvatures_length: usize) -> Fitted {
    let mut far = call.made();
    let answer = far.answer();
    far.list(slopes, slopes_length);
    far.list(curvatures, curvatures_length);
    answer
}

#[allow(clippy::too_many_arguments)]
pub unsafe fn kaihveto_fit(
    minutes: *const u16,
    minutes_length: usize,
    ordinates: *const i16,
    ordinates_length: usize,
    slopes: *mut i32,
    slopes_length: usize,
    curvatures: *mut i32,
    curvatures_length: usize,
) -> Fitted {
    let knots = Call::new(b'f').list(minutes, minutes_length).list(ordinates, ordinates_length);
    let call = knots.list(slopes, slopes_length).list(curvatures, curvatures_length);
    fitted(call, slopes, slopes_length, curvatures, curvatures_length)
}

#[allow(clippy::too_many_arguments)]
pub unsafe fn kaihveto_fit_ends(
    minutes: *const u16,
    minutes_length: usize,
    ordinates: *const i16,
    ordinates_length: usize,
    slopes: *mut i32,
    slopes_length: usize,
    curvatures: *mut i32,
    curvatures_length: usize,
    left: u16,
    left_slope: f64,
    left_curvature: f64,
    right: u16,
    right_slope: f64,
    right_curvature: f64,
) -> Fitted {
    let knots = Call::new(b'e').list(minutes, minutes_length).list(ordinates, ordinates_length);
    let lists = knots.list(slopes, slopes_length).list(curvatures, curvatures_length);
    let ended = lists.number(left.into()).real(left_slope).real(left_curvature);
    let call = ended.number(right.into()).real(right_slope).real(right_curvature);
    fitted(call, slopes, slopes_length, curvatures, curvatures_length)
}

#[allow(clippy::too_many_arguments)]
pub unsafe fn kaihveto_fit_slopes(
    minutes: *const u16,
    minutes_length: usize,
    ordinates: *const i16,
    ordinates_length: usize,
    slopes: *const i32,
    slopes_length: usize,
    curvatures: *mut i32,
    curvatures_length: usize,
) -> Fitted {
    let knots = Call::new(b'g').list(minutes, minutes_length).list(ordinates, ordinates_length);
    let mut far = knots.list(slopes, slopes_length).list(curvatures, curvatures_length).made();
    let answer = far.answer();
    far.list(curvatures, curvatures_length);
    answer
}

#[allow(clippy::too_many_arguments)]
pub unsafe fn kaihveto_write(
    minutes: *const u16,
    minutes_length: usize,
    ordinates: *const i16,
    ordinates_length: usize,
    slopes: *const i32,
    slopes_length: usize,
    curvatures: *const i32,
    curvatures_length: usize,
    left: u16,
    right: u16,
    buffer: *mut u8,
    buffer_length: usize,
) -> Written {
    let knots = Call::new(b'w').list(minutes, minutes_length).list(ordinates, ordinates_length);
    let lists = knots.list(slopes, slopes_length).list(curvatures, curvatures_length);
    let mut far = lists.number(left.into()).number(right.into()).list(buffer, buffer_length).made();
    let answer = far.answer();
    far.list(buffer, buffer_length);
    answer
}

#[allow(clippy::too_many_arguments)]
pub unsafe fn kaihveto_write_slopes(
    minutes: *const u16,
    minutes_length: usize,
    ordinates: *const i16,
    ordinates_length: usize,
    slopes: *const i32,
    slopes_length: usize,
    curvatures: *const i32,
    curvatures_length: usize,
    buffer: *mut u8,
    buffer_length: usize,
) -> Written {
    let knots = Call::new(b'v').list(minutes, minutes_length).list(ordinates, ordinates_length);
    let lists = knots.list(slopes, slopes_length).list(curvatures, curvatures_length);
    let mut far = lists.list(buffer, buffer_length).made();
    let answer = far.answer();
    far.list(buffer, buffer_length);
    answer
}

pub unsafe fn kaihveto_check(card: *const u8, card_length: usize) -> Checked {
    Call::new(b'c').list(card, card_length).made().answer()
}

#[allow(clippy::too_many_arguments)]
pub unsafe fn kaihveto_read(
    card: *const u8,
    card_length: usize,
    minutes: *mut u16,
    minutes_length: usize,
    ordinates: *mut i16,
    ordinates_length: usize,
    slopes: *mut i32,
    slopes_length: usize,
    curvatures: *mut i32,
    curvatures_length: usize,
) -> Checked {
    let knots = Call::new(b'r').list(card, card_length).list(minutes, minutes_length).list(ordinates, ordinates_length);
    let mut far = knots.list(slopes, slopes_length).list(curvatures, curvatures_length).made();
    let answer = far.answer();
    far.list(minutes, minutes_length);
    far.list(ordinates, ordinates_length);
    far.list(slopes, slopes_length);
    far.list(curvatures, curvatures_length);
    answer
}

pub unsafe fn kaihveto_reading(card: *const u8, card_length: usize, minute: u16) -> Reading {
    Call::new(b'o').list(card, card_length).number(minute.into()).made().answer()
}

#[allow(clippy::too_many_arguments)]
pub unsafe fn kaihveto_table(
    card: *const u8,
    card_length: usize,
    from: u16,
    values: *mut i32,
    values_length: usize,
    slopes: *mut i32,
    slopes_length: usize,
    curvatures: *mut i32,
    curvatures_length: usize,
) -> Tabled {
    let asked = Call::new(b't').list(card, card_length).number(from.into());
    let mut far = asked.list(values, values_length).list(slopes, slopes_length).list(curvatures, curvatures_length).made();
    let answer = far.answer();
    far.list(values, values_length);
    far.list(slopes, slopes_length);
    far.list(curvatures, curvatures_length);
    answer
}

pub unsafe fn kaihveto_explain(card: *const u8, card_length: usize, minute: u16) -> Explained {
    Call::new(b'y').list(card, card_length).number(minute.into()).made().answer()
}

pub unsafe fn kaihveto_swing(card: *const u8, card_length: usize) -> Swing {
    Call::new(b's').list(card, card_length).made().answer()
}

pub unsafe fn kaihveto_preheat(values: *const i16, values_length: usize, parts: u16, count: u16) -> Preheated {
    Call::new(b'n').list(values, values_length).number(parts.into()).number(count.into()).made().answer()
}

pub unsafe fn kaihveto_refit(
    card: *const u8,
    card_length: usize,
    slopes: *mut i32,
    slopes_length: usize,
    curvatures: *mut i32,
    curvatures_length: usize,
) -> Refitted {
    let mut far = Call::new(b'a').list(card, card_length).list(slopes, slopes_length).list(curvatures, curvatures_length).made();
    let answer = far.answer();
    far.list(slopes, slopes_length);
    far.list(curvatures, curvatures_length);
    answer
}

#[allow(clippy::too_many_arguments)]
pub unsafe fn kaihveto_mend(
    minutes: *const u16,
    minutes_length: usize,
    ordinates: *mut i16,
    ordinates_length: usize,
    slopes: *mut i32,
    slopes_length: usize,
    curvatures: *mut i32,
    curvatures_length: usize,
    changes: *mut Change,
    changes_length: usize,
) -> Mended {
    let sheet = Call::new(b'h').list(minutes, minutes_length).list(ordinates, ordinates_length);
    let mut far = sheet.list(slopes, slopes_length).list(curvatures, curvatures_length).list(changes, changes_length).made();
    let answer = far.answer();
    far.list(ordinates, ordinates_length);
    far.list(slopes, slopes_length);
    far.list(curvatures, curvatures_length);
    far.list(changes, changes_length);
    answer
}

pub unsafe fn kaihveto_book_find(book: *const u8, book_length: usize, room: u16) -> Spot {
    Call::new(b'l').list(book, book_length).number(room.into()).made().answer()
}

pub unsafe fn kaihveto_book_put(book: *mut u8, book_length: usize, room: u16, card: *const u8, card_length: usize) -> Used {
    let mut far = Call::new(b'p').list(book, book_length).number(room.into()).list(card, card_length).made();
    let answer = far.answer();
    far.list(book, book_length);
    answer
}

pub unsafe fn kaihveto_book_remove(book: *mut u8, book_length: usize, room: u16) -> Used {
    let mut far = Call::new(b'x').list(book, book_length).number(room.into()).made();
    let answer = far.answer();
    far.list(book, book_length);
    answer
}
