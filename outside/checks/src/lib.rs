//! An outside check: scenes made from the documents alone, run through the proved programs and
//! through an independent implementation of the same documents.

pub mod bytes;
pub mod catalog;
pub mod damage;
pub mod outcome;
pub mod programs;
pub mod random;
pub mod surfaces;
