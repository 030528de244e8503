//! The library's functions, each wrapped so that safe Rust can call it: a slice passes as its pointer and
//! then its length, an answer comes back by value. They are those of the archive that is linked, or of a far
//! program where one is named.

use crate::far;

/// What kaihveto_mean answers.
#[repr(C)]
#[derive(Clone, Copy, Debug, Default, PartialEq, Eq)]
pub struct Mean {
    pub number: u32,
    pub place: u32,
    pub minute: u32,
    pub ordinate: i32,
    pub good: u32,
    pub faults: u32,
}

/// What the three fits answer.
#[repr(C)]
#[derive(Clone, Copy, Debug, Default, PartialEq, Eq)]
pub struct Fitted {
    pub number: u32,
    pub place: u32,
}

/// What the two writers answer.
#[repr(C)]
#[derive(Clone, Copy, Debug, Default, PartialEq, Eq)]
pub struct Written {
    pub number: u32,
    pub place: u32,
    pub bytes: u32,
}

/// What kaihveto_check and kaihveto_read answer.
#[repr(C)]
#[derive(Clone, Copy, Debug, Default, PartialEq, Eq)]
pub struct Checked {
    pub number: u32,
    pub place: u32,
    pub knots: u32,
    pub left: u32,
    pub right: u32,
    pub kind: u32,
}

/// What kaihveto_reading answers.
#[repr(C)]
#[derive(Clone, Copy, Debug, Default, PartialEq, Eq)]
pub struct Reading {
    pub number: u32,
    pub place: u32,
    pub value: i32,
    pub slope: i32,
    pub curvature: i32,
    pub looks: u32,
}

/// What kaihveto_table answers.
#[repr(C)]
#[derive(Clone, Copy, Debug, Default, PartialEq, Eq)]
pub struct Tabled {
    pub number: u32,
    pub place: u32,
    pub count: u32,
}

/// What kaihveto_explain answers.
#[repr(C)]
#[derive(Clone, Copy, Debug, Default, PartialEq, Eq)]
pub struct Explained {
    pub number: u32,
    pub place: u32,
    pub gap: u32,
    pub minutes: u32,
    pub left_ordinate: i64,
    pub right_ordinate: i64,
    pub left_slope: i64,
    pub right_slope: i64,
    pub left_curvature: i64,
    pub right_curvature: i64,
    pub denominator: i64,
    pub knot: u32,
    pub order: u32,
    pub jump: i64,
    pub allowance: i64,
}

/// What kaihveto_swing answers.
#[repr(C)]
#[derive(Clone, Copy, Debug, Default, PartialEq, Eq)]
pub struct Swing {
    pub number: u32,
    pub place: u32,
    pub knot: u32,
    pub minute: u32,
    pub below: u32,
    pub above: u32,
}

/// What kaihveto_preheat answers.
#[repr(C)]
#[derive(Clone, Copy, Debug, Default, PartialEq, Eq)]
pub struct Preheated {
    pub number: u32,
    pub place: u32,
    pub value: i32,
}

/// What kaihveto_refit answers.
#[repr(C)]
#[derive(Clone, Copy, Debug, Default, PartialEq, Eq)]
pub struct Refitted {
    pub number: u32,
    pub place: u32,
    pub knots: u32,
    pub changed: u32,
}

/// A place of the list of changes that kaihveto_mend takes.
#[repr(C)]
#[derive(Clone, Copy, Debug, Default, PartialEq, Eq)]
pub struct Change {
    pub place: u32,
    pub old: i32,
    pub new: i32,
}

/// What kaihveto_mend answers.
#[repr(C)]
#[derive(Clone, Copy, Debug, Default, PartialEq, Eq)]
pub struct Mended {
    pub number: u32,
    pub place: u32,
    pub count: u32,
}

/// What kaihveto_book_find answers.
#[repr(C)]
#[derive(Clone, Copy, Debug, Default, PartialEq, Eq)]
pub struct Spot {
    pub number: u32,
    pub place: u32,
    pub start: u32,
    pub length: u32,
}

/// What kaihveto_book_put and kaihveto_book_remove answer.
#[repr(C)]
#[derive(Clone, Copy, Debug, Default, PartialEq, Eq)]
pub struct Used {
    pub number: u32,
    pub place: u32,
    pub bytes: u32,
}

/// An end as the boundary takes it: a code number and the two numbers beside it.
#[derive(Clone, Copy, Debug, Default)]
pub struct End {
    pub code: u16,
    pub slope: f64,
    pub curvature: f64,
}

#[cfg(archive)]
mod linked {
    use super::{Change, Checked, Explained, Fitted, Mean, Mended, Preheated, Reading, Refitted, Spot, Swing, Tabled, Used, Written};

    extern "C" {
        pub fn kaihveto_mean(first_minute: u16, log: *const u8, log_length: usize) -> Mean;
        pub fn kaihveto_fit(
            minutes: *const u16,
            minutes_length: usize,
            ordinates: *const i16,
            ordinates_length: usize,
            slopes: *mut i32,
            slopes_length: usize,
            curvatures: *mut i32,
            curvatures_length: usize,
        ) -> Fitted;
        pub fn kaihveto_fit_ends(
            minutes: *const u16,
            minutes_length: usize,
            ordinates: *const i16,
            ordinates_length: usize,
            slopes: *mut i32,
            slopes_length: usize,
            curvatures: *mut i32,
            curvatures_length: usize,
            left: u16,
            left_slope: f64,
            left_curvature: f64,
            right: u16,
            right_slope: f64,
            right_curvature: f64,
        ) -> Fitted;
        pub fn kaihveto_fit_slopes(
            minutes: *const u16,
            minutes_length: usize,
            ordinates: *const i16,
            ordinates_length: usize,
            slopes: *const i32,
            slopes_length: usize,
            curvatures: *mut i32,
            curvatures_length: usize,
        ) -> Fitted;
        pub fn kaihveto_write(
            minutes: *const u16,
            minutes_length: usize,
            ordinates: *const i16,
            ordinates_length: usize,
            slopes: *const i32,
            slopes_length: usize,
            curvatures: *const i32,
            curvatures_length: usize,
            left: u16,
            right: u16,
            buffer: *mut u8,
            buffer_length: usize,
        ) -> Written;
        pub fn kaihveto_write_slopes(
            minutes: *const u16,
            minutes_length: usize,
            ordinates: *const i16,
            ordinates_length: usize,
            slopes: *const i32,
            slopes_length: usize,
            curvatures: *const i32,
            curvatures_length: usize,
            buffer: *mut u8,
            buffer_length: usize,
        ) -> Written;
        pub fn kaihveto_check(card: *const u8, card_length: usize) -> Checked;
        pub fn kaihveto_read(
            card: *const u8,
            card_length: usize,
            minutes: *mut u16,
            minutes_length: usize,
            ordinates: *mut i16,
            ordinates_length: usize,
            slopes: *mut i32,
            slopes_length: usize,
            curvatures: *mut i32,
            curvatures_length: usize,
        ) -> Checked;
        pub fn kaihveto_reading(card: *const u8, card_length: usize, minute: u16) -> Reading;
        pub fn kaihveto_table(
            card: *const u8,
            card_length: usize,
            from: u16,
            values: *mut i32,
            values_length: usize,
            slopes: *mut i32,
            slopes_length: usize,
            curvatures: *mut i32,
            curvatures_length: usize,
        ) -> Tabled;
        pub fn kaihveto_explain(card: *const u8, card_length: usize, minute: u16) -> Explained;
        pub fn kaihveto_swing(card: *const u8, card_length: usize) -> Swing;
        pub fn kaihveto_preheat(values: *const i16, values_length: usize, parts: u16, count: u16) -> Preheated;
        pub fn kaihveto_refit(
            card: *const u8,
            card_length: usize,
            slopes: *mut i32,
            slopes_length: usize,
            curvatures: *mut i32,
            curvatures_length: usize,
        ) -> Refitted;
        pub fn kaihveto_mend(
            minutes: *const u16,
            minutes_length: usize,
            ordinates: *mut i16,
            ordinates_length: usize,
            slopes: *mut i32,
            slopes_length: usize,
            curvatures: *mut i32,
            curvatures_length: usize,
            changes: *mut Change,
            changes_length: usize,
        ) -> Mended;
        pub fn kaihveto_book_find(book: *const u8, book_length: usize, room: u16) -> Spot;
        pub fn kaihveto_book_put(book: *mut u8, book_length: usize, room: u16, card: *const u8, card_length: usize) -> Used;
        pub fn kaihveto_book_remove(book: *mut u8, book_length: usize, room: u16) -> Used;
    }
}

/// What is called, if there is anything.
pub fn library() -> Option<String> {
    let linked = cfg!(archive).then(|| "the archive".to_string());
    far::program().map(|program| program.to_string_lossy().into_owned()).or(linked)
}

#[cfg(archive)]
macro_rules! call {
    ($function:ident $arguments:tt) => {
        unsafe {
            if far::program().is_some() {
                far::$function $arguments
            } else {
                linked::$function $arguments
            }
        }
    };
}

#[cfg(not(archive))]
macro_rules! call {
    ($function:ident $arguments:tt) => {
        unsafe { far::$function $arguments }
    };
}

// Each call below passes pointers and lengths of slices that live until it returns and, where they are lent for writing, overlap no other.

pub fn mean(first_minute: u16, log: &[u8]) -> Mean {
    call!(kaihveto_mean(first_minute, log.as_ptr(), log.len()))
}

pub fn fit(minutes: &[u16], ordinates: &[i16], slopes: &mut [i32], curvatures: &mut [i32]) -> Fitted {
    call!(kaihveto_fit(
        minutes.as_ptr(),
        minutes.len(),
        ordinates.as_ptr(),
        ordinates.len(),
        slopes.as_mut_ptr(),
        slopes.len(),
        curvatures.as_mut_ptr(),
        curvatures.len(),
    ))
}

pub fn fit_ends(minutes: &[u16], ordinates: &[i16], slopes: &mut [i32], curvatures: &mut [i32], left: End, right: End) -> Fitted {
    call!(kaihveto_fit_ends(
        minutes.as_ptr(),
        minutes.len(),
        ordinates.as_ptr(),
        ordinates.len(),
        slopes.as_mut_ptr(),
        slopes.len(),
        curvatures.as_mut_ptr(),
        curvatures.len(),
        left.code,
        left.slope,
        left.curvature,
        right.code,
        right.slope,
        right.curvature,
    ))
}

pub fn fit_slopes(minutes: &[u16], ordinates: &[i16], slopes: &[i32], curvatures: &mut [i32]) -> Fitted {
    call!(kaihveto_fit_slopes(
        minutes.as_ptr(),
        minutes.len(),
        ordinates.as_ptr(),
        ordinates.len(),
        slopes.as_ptr(),
        slopes.len(),
        curvatures.as_mut_ptr(),
        curvatures.len(),
    ))
}

pub fn write(minutes: &[u16], ordinates: &[i16], slopes: &[i32], curvatures: &[i32], left: u16, right: u16, buffer: &mut [u8]) -> Written {
    call!(kaihveto_write(
        minutes.as_ptr(),
        minutes.len(),
        ordinates.as_ptr(),
        ordinates.len(),
        slopes.as_ptr(),
        slopes.len(),
        curvatures.as_ptr(),
        curvatures.len(),
        left,
        right,
        buffer.as_mut_ptr(),
        buffer.len(),
    ))
}

pub fn write_slopes(minutes: &[u16], ordinates: &[i16], slopes: &[i32], curvatures: &[i32], buffer: &mut [u8]) -> Written {
    call!(kaihveto_write_slopes(
        minutes.as_ptr(),
        minutes.len(),
        ordinates.as_ptr(),
        ordinates.len(),
        slopes.as_ptr(),
        slopes.len(),
        curvatures.as_ptr(),
        curvatures.len(),
        buffer.as_mut_ptr(),
        buffer.len(),
    ))
}

pub fn check(card: &[u8]) -> Checked {
    call!(kaihveto_check(card.as_ptr(), card.len()))
}

pub fn read(card: &[u8], minutes: &mut [u16], ordinates: &mut [i16], slopes: &mut [i32], curvatures: &mut [i32]) -> Checked {
    call!(kaihveto_read(
        card.as_ptr(),
        card.len(),
        minutes.as_mut_ptr(),
        minutes.len(),
        ordinates.as_mut_ptr(),
        ordinates.len(),
        slopes.as_mut_ptr(),
        slopes.len(),
        curvatures.as_mut_ptr(),
        curvatures.len(),
    ))
}

pub fn reading(card: &[u8], minute: u16) -> Reading {
    call!(kaihveto_reading(card.as_ptr(), card.len(), minute))
}

pub fn table(card: &[u8], from: u16, values: &mut [i32], slopes: &mut [i32], curvatures: &mut [i32]) -> Tabled {
    call!(kaihveto_table(
        card.as_ptr(),
        card.len(),
        from,
        values.as_mut_ptr(),
        values.len(),
        slopes.as_mut_ptr(),
        slopes.len(),
        curvatures.as_mut_ptr(),
        curvatures.len(),
    ))
}

pub fn explain(card: &[u8], minute: u16) -> Explained {
    call!(kaihveto_explain(card.as_ptr(), card.len(), minute))
}

pub fn swing(card: &[u8]) -> Swing {
    call!(kaihveto_swing(card.as_ptr(), card.len()))
}

pub fn preheat(values: &[i16], parts: u16, count: u16) -> Preheated {
    call!(kaihveto_preheat(values.as_ptr(), values.len(), parts, count))
}

pub fn refit(card: &[u8], slopes: &mut [i32], curvatures: &mut [i32]) -> Refitted {
    call!(kaihveto_refit(card.as_ptr(), card.len(), slopes.as_mut_ptr(), slopes.len(), curvatures.as_mut_ptr(), curvatures.len()))
}

pub fn mend(minutes: &[u16], ordinates: &mut [i16], slopes: &mut [i32], curvatures: &mut [i32], changes: &mut [Change]) -> Mended {
    call!(kaihveto_mend(
        minutes.as_ptr(),
        minutes.len(),
        ordinates.as_mut_ptr(),
        ordinates.len(),
        slopes.as_mut_ptr(),
        slopes.len(),
        curvatures.as_mut_ptr(),
        curvatures.len(),
        changes.as_mut_ptr(),
        changes.len(),
    ))
}

pub fn book_find(book: &[u8], room: u16) -> Spot {
    call!(kaihveto_book_find(book.as_ptr(), book.len(), room))
}

pub fn book_put(book: &mut [u8], room: u16, card: &[u8]) -> Used {
    call!(kaihveto_book_put(book.as_mut_ptr(), book.len(), room, card.as_ptr(), card.len()))
}

pub fn book_remove(book: &mut [u8], room: u16) -> Used {
    call!(kaihveto_book_remove(book.as_mut_ptr(), book.len(), room))
}
