//! What the differential test and the benchmark are made of.
//!
//! [`random`] has the numbers, [`shapes`] settings worth a test, [`images`] images made by hand, [`schedules`] steps
//! that lead into deep states. [`case`] runs two machines side by side, [`shrink`] makes a case smaller that tells them
//! apart, and [`campaign`] is the whole test.

pub mod campaign;
pub mod case;
pub mod images;
pub mod random;
pub mod schedules;
pub mod shapes;
pub mod shrink;
