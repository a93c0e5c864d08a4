//! A second implementation of the intake head, written from the paper alone, and its comparison with the proved one
//! in the archive: histories of calls, their text form, and a comparison after every call.

pub mod archive;
pub mod calls;
pub mod compare;
pub mod histories;
pub mod model;
pub mod random;
