//! The functions of include/kaihveto.h: what they answer, which the outside check states too (an answer of
//! three numbers stands for that of the table and of the mending, and that of the writer for those of the put
//! and the removal), as whom one may ask (`Functions`), and the library as one C compiler has made it, each
//! function wrapped so that safe Rust can call it: a slice passes as its pointer and then its length, an
//! answer comes back by value.

pub use independent::boundary::{
    Change, Checked, End, Explained, Fitted, Mean, Preheated, Reading, Refitted, Spot, Swing, Tabled as Counted, Written,
};

/// Minutes and ordinates.
pub type Knots<'a> = (&'a [u16], &'a [i16]);

/// The functions of the header. What is timed and compared asks these, whoever answers.
pub trait Functions {
    fn mean(&self, first: u16, log: &[u8]) -> Mean;
    fn fit(&self, knots: Knots, slopes: &mut [i32], curvatures: &mut [i32]) -> Fitted;
    fn fit_ends(&self, knots: Knots, slopes: &mut [i32], curvatures: &mut [i32], left: End, right: End) -> Fitted;
    fn fit_slopes(&self, knots: Knots, slopes: &[i32], curvatures: &mut [i32]) -> Fitted;
    fn write(&self, knots: Knots, slopes: &[i32], curvatures: &[i32], codes: (u16, u16), buffer: &mut [u8]) -> Written;
    fn write_slopes(&self, knots: Knots, slopes: &[i32], curvatures: &[i32], buffer: &mut [u8]) -> Written;
    fn check(&self, card: &[u8]) -> Checked;
    fn read(&self, card: &[u8], minutes: &mut [u16], ordinates: &mut [i16], slopes: &mut [i32], curvatures: &mut [i32]) -> Checked;
    fn reading(&self, card: &[u8], minute: u16) -> Reading;
    fn table(&self, card: &[u8], from: u16, values: &mut [i32], slopes: &mut [i32], curvatures: &mut [i32]) -> Counted;
    fn explain(&self, card: &[u8], minute: u16) -> Explained;
    fn swing(&self, card: &[u8]) -> Swing;
    fn preheat(&self, values: &[i16], parts: u16, count: u16) -> Preheated;
    fn refit(&self, card: &[u8], slopes: &mut [i32], curvatures: &mut [i32]) -> Refitted;
    fn mend(&self, minutes: &[u16], ordinates: &mut [i16], slopes: &mut [i32], curvatures: &mut [i32], changes: &mut [Change]) -> Counted;
    fn book_find(&self, book: &[u8], room: u16) -> Spot;
    fn book_put(&self, book: &mut [u8], room: u16, card: &[u8]) -> Written;
    fn book_remove(&self, book: &mut [u8], room: u16) -> Written;
}

/// The functions' addresses, in the order of src/functions.c.
#[repr(C)]
pub struct Library {
    mean: unsafe extern "C" fn(u16, *const u8, usize) -> Mean,
    fit: unsafe extern "C" fn(*const u16, usize, *const i16, usize, *mut i32, usize, *mut i32, usize) -> Fitted,
    fit_ends: unsafe extern "C" fn(
        *const u16,
        usize,
        *const i16,
        usize,
        *mut i32,
        usize,
        *mut i32,
        usize,
        u16,
        f64,
        f64,
        u16,
        f64,
        f64,
    ) -> Fitted,
    fit_slopes: unsafe extern "C" fn(*const u16, usize, *const i16, usize, *const i32, usize, *mut i32, usize) -> Fitted,
    write: unsafe extern "C" fn(
        *const u16,
        usize,
        *const i16,
        usize,
        *const i32,
        usize,
        *const i32,
        usize,
        u16,
        u16,
        *mut u8,
        usize,
    ) -> Written,
    write_slopes:
        unsafe extern "C" fn(*const u16, usize, *const i16, usize, *const i32, usize, *const i32, usize, *mut u8, usize) -> Written,
    check: unsafe extern "C" fn(*const u8, usize) -> Checked,
    read: unsafe extern "C" fn(*const u8, usize, *mut u16, usize, *mut i16, usize, *mut i32, usize, *mut i32, usize) -> Checked,
    reading: unsafe extern "C" fn(*const u8, usize, u16) -> Reading,
    table: unsafe extern "C" fn(*const u8, usize, u16, *mut i32, usize, *mut i32, usize, *mut i32, usize) -> Counted,
    explain: unsafe extern "C" fn(*const u8, usize, u16) -> Explained,
    swing: unsafe extern "C" fn(*const u8, usize) -> Swing,
    preheat: unsafe extern "C" fn(*const i16, usize, u16, u16) -> Preheated,
    refit: unsafe extern "C" fn(*const u8, usize, *mut i32, usize, *mut i32, usize) -> Refitted,
    mend: unsafe extern "C" fn(*const u16, usize, *mut i16, usize, *mut i32, usize, *mut i32, usize, *mut Change, usize) -> Counted,
    book_find: unsafe extern "C" fn(*const u8, usize, u16) -> Spot,
    book_put: unsafe extern "C" fn(*mut u8, usize, u16, *const u8, usize) -> Written,
    book_remove: unsafe extern "C" fn(*mut u8, usize, u16) -> Written,
}

extern "C" {
    #[cfg(gcc)]
    static gcc_functions: Library;
    #[cfg(clang)]
    static clang_functions: Library;
}

/// The library by each compiler that bench/run found.
pub fn libraries() -> Vec<(&'static str, &'static Library)> {
    vec![
        #[cfg(gcc)]
        ("GCC", unsafe { &gcc_functions }),
        #[cfg(clang)]
        ("clang", unsafe { &clang_functions }),
    ]
}

// Each call below passes pointers and lengths of slices that live until it returns and, where they are lent
// for writing, overlap no other.
impl Functions for Library {
    fn mean(&self, first: u16, log: &[u8]) -> Mean {
        unsafe { (self.mean)(first, log.as_ptr(), log.len()) }
    }

    fn fit(&self, (minutes, ordinates): Knots, slopes: &mut [i32], curvatures: &mut [i32]) -> Fitted {
        let (n, m) = (slopes.len(), curvatures.len());
        let (slopes, curvatures) = (slopes.as_mut_ptr(), curvatures.as_mut_ptr());
        unsafe { (self.fit)(minutes.as_ptr(), minutes.len(), ordinates.as_ptr(), ordinates.len(), slopes, n, curvatures, m) }
    }

    fn fit_ends(&self, (minutes, ordinates): Knots, slopes: &mut [i32], curvatures: &mut [i32], left: End, right: End) -> Fitted {
        unsafe {
            (self.fit_ends)(
                minutes.as_ptr(),
                minutes.len(),
                ordinates.as_ptr(),
                ordinates.len(),
                slopes.as_mut_ptr(),
                slopes.len(),
                curvatures.as_mut_ptr(),
                curvatures.len(),
                left.code,
                left.slope,
                left.curvature,
                right.code,
                right.slope,
                right.curvature,
            )
        }
    }

    fn fit_slopes(&self, (minutes, ordinates): Knots, slopes: &[i32], curvatures: &mut [i32]) -> Fitted {
        let (n, m) = (slopes.len(), curvatures.len());
        let (slopes, curvatures) = (slopes.as_ptr(), curvatures.as_mut_ptr());
        unsafe { (self.fit_slopes)(minutes.as_ptr(), minutes.len(), ordinates.as_ptr(), ordinates.len(), slopes, n, curvatures, m) }
    }

    fn write(&self, (minutes, ordinates): Knots, slopes: &[i32], curvatures: &[i32], codes: (u16, u16), buffer: &mut [u8]) -> Written {
        unsafe {
            (self.write)(
                minutes.as_ptr(),
                minutes.len(),
                ordinates.as_ptr(),
                ordinates.len(),
                slopes.as_ptr(),
                slopes.len(),
                curvatures.as_ptr(),
                curvatures.len(),
                codes.0,
                codes.1,
                buffer.as_mut_ptr(),
                buffer.len(),
            )
        }
    }

    fn write_slopes(&self, (minutes, ordinates): Knots, slopes: &[i32], curvatures: &[i32], buffer: &mut [u8]) -> Written {
        unsafe {
            (self.write_slopes)(
                minutes.as_ptr(),
                minutes.len(),
                ordinates.as_ptr(),
                ordinates.len(),
                slopes.as_ptr(),
                slopes.len(),
                curvatures.as_ptr(),
                curvatures.len(),
                buffer.as_mut_ptr(),
                buffer.len(),
            )
        }
    }

    fn check(&self, card: &[u8]) -> Checked {
        unsafe { (self.check)(card.as_ptr(), card.len()) }
    }

    fn read(&self, card: &[u8], minutes: &mut [u16], ordinates: &mut [i16], slopes: &mut [i32], curvatures: &mut [i32]) -> Checked {
        unsafe {
            (self.read)(
                card.as_ptr(),
                card.len(),
                minutes.as_mut_ptr(),
                minutes.len(),
                ordinates.as_mut_ptr(),
                ordinates.len(),
                slopes.as_mut_ptr(),
                slopes.len(),
                curvatures.as_mut_ptr(),
                curvatures.len(),
            )
        }
    }

    fn reading(&self, card: &[u8], minute: u16) -> Reading {
        unsafe { (self.reading)(card.as_ptr(), card.len(), minute) }
    }

    fn table(&self, card: &[u8], from: u16, values: &mut [i32], slopes: &mut [i32], curvatures: &mut [i32]) -> Counted {
        unsafe {
            (self.table)(
                card.as_ptr(),
                card.len(),
                from,
                values.as_mut_ptr(),
                values.len(),
                slopes.as_mut_ptr(),
                slopes.len(),
                curvatures.as_mut_ptr(),
                curvatures.len(),
            )
        }
    }

    fn explain(&self, card: &[u8], minute: u16) -> Explained {
        unsafe { (self.explain)(card.as_ptr(), card.len(), minute) }
    }

    fn swing(&self, card: &[u8]) -> Swing {
        unsafe { (self.swing)(card.as_ptr(), card.len()) }
    }

    fn preheat(&self, values: &[i16], parts: u16, count: u16) -> Preheated {
        unsafe { (self.preheat)(values.as_ptr(), values.len(), parts, count) }
    }

    fn refit(&self, card: &[u8], slopes: &mut [i32], curvatures: &mut [i32]) -> Refitted {
        unsafe { (self.refit)(card.as_ptr(), card.len(), slopes.as_mut_ptr(), slopes.len(), curvatures.as_mut_ptr(), curvatures.len()) }
    }

    fn mend(&self, minutes: &[u16], ordinates: &mut [i16], slopes: &mut [i32], curvatures: &mut [i32], changes: &mut [Change]) -> Counted {
        unsafe {
            (self.mend)(
                minutes.as_ptr(),
                minutes.len(),
                ordinates.as_mut_ptr(),
                ordinates.len(),
                slopes.as_mut_ptr(),
                slopes.len(),
                curvatures.as_mut_ptr(),
                curvatures.len(),
                changes.as_mut_ptr(),
                changes.len(),
            )
        }
    }

    fn book_find(&self, book: &[u8], room: u16) -> Spot {
        unsafe { (self.book_find)(book.as_ptr(), book.len(), room) }
    }

    fn book_put(&self, book: &mut [u8], room: u16, card: &[u8]) -> Written {
        unsafe { (self.book_put)(book.as_mut_ptr(), book.len(), room, card.as_ptr(), card.len()) }
    }

    fn book_remove(&self, book: &mut [u8], room: u16) -> Written {
        unsafe { (self.book_remove)(book.as_mut_ptr(), book.len(), room) }
    }
}
