//! Boost's quintic Hermite, as each compiler that bench/run found has made it of src/boost.cpp.

use independent::curves::Numbers;
use std::ffi::c_void;

type Lay = unsafe extern "C" fn(*const u16, *const i16, *const i32, *const i32, usize) -> *mut c_void;
type Table = unsafe extern "C" fn(*const c_void, u16, usize, *mut f64, *mut f64, *mut f64);
type Drop = unsafe extern "C" fn(*mut c_void);

#[allow(unused_macros)]
macro_rules! declare {
    ($lay:ident, $table:ident, $drop:ident) => {{
        extern "C" {
            fn $lay(minutes: *const u16, ordinates: *const i16, slopes: *const i32, curvatures: *const i32, n: usize) -> *mut c_void;
            fn $table(laid: *const c_void, from: u16, count: usize, values: *mut f64, slopes: *mut f64, curvatures: *mut f64);
            fn $drop(laid: *mut c_void);
        }
        Boost { lay: $lay, table: $table, drop: $drop }
    }};
}

#[derive(Clone, Copy)]
pub struct Boost {
    lay: Lay,
    table: Table,
    drop: Drop,
}

/// By the compiler of this name, where Boost's headers are installed.
pub fn boost(_compiler: &str) -> Option<Boost> {
    #[cfg(gcc_boost)]
    if _compiler == "GCC" {
        return Some(declare!(gcc_lay, gcc_table, gcc_drop));
    }
    #[cfg(clang_boost)]
    if _compiler == "clang" {
        return Some(declare!(clang_lay, clang_table, clang_drop));
    }
    None
}

/// The curve of a card.
pub struct Curve {
    by: Boost,
    laid: *mut c_void,
}

impl Curve {
    pub fn of(by: Boost, card: &Numbers) -> Curve {
        let (sheet, n) = (&card.sheet, card.sheet.minutes.len());
        let lists = (sheet.minutes.as_ptr(), sheet.ordinates.as_ptr(), card.slopes.as_ptr(), card.curvatures.as_ptr());
        Curve { by, laid: unsafe { (by.lay)(lists.0, lists.1, lists.2, lists.3, n) } }
    }

    /// At the minutes from one on, as many as the lists have places.
    pub fn table(&self, from: u16, [values, slopes, curvatures]: [&mut [f64]; 3]) {
        assert!(slopes.len() == values.len() && curvatures.len() == values.len());
        unsafe { (self.by.table)(self.laid, from, values.len(), values.as_mut_ptr(), slopes.as_mut_ptr(), curvatures.as_mut_ptr()) }
    }
}

impl std::ops::Drop for Curve {
    fn drop(&mut self) {
        unsafe { (self.by.drop)(self.laid) }
    }
}
