//! Differential tests: the proved purse store and the plain one get the same lists of calls, and
//! everything that a call leaves is compared after every call. On lists that were not tampered with,
//! document 01's cut rule is checked too, with a map from names to bytes. Conversions are compared as well, and
//! what open answers is checked against a reader of its own.

pub mod cards;
mod conversions;
pub mod damage;
pub mod faults;
pub mod gen;
pub mod image;
pub mod lists;
mod loads;
pub mod model;
pub mod monday;
pub mod pair;
#[cfg(feature = "proved")]
mod proved;
pub mod rng;
pub mod side;
pub mod table;
pub mod verdict;
