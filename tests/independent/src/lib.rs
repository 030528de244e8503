//! An outside check of the kaihveto library: documents 01 and 02 written a second time (`reference`), the library's own
//! functions (`boundary`), and the comparison of the two (`compare`). Nothing here is shared with the library.

mod books;
pub mod boundary;
#[cfg(test)]
mod cases;
pub mod compare;
pub mod curves;
#[cfg(test)]
mod exact;
mod far;
pub mod fitter;
pub mod groups;
#[cfg(test)]
mod header;
pub mod lines;
pub mod preheater;
pub mod random;
pub mod reference;
mod removals;
#[cfg(test)]
mod sheet;
pub mod slopes;
pub mod vectors;
