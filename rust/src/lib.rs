//! Ernuvald for Rust.
//!
//! [`library`] is the safe face of the proved library: functions over slices of 32-bit words, for slices of any
//! length and any words in them. [`plain`] is the same machine written a second time, in plain Rust and from the
//! requirements paper alone; it is what the differential test and the benchmark compare the library with.
//! [`terms`] has what both speak of: settings, operations, steps, replies, reasons for a refusal.
//!
//! ```
//! use ernuvald::plain::{set_up, step, words, Idiomatic};
//! use ernuvald::terms::{Operation, Reply, Settings, Step};
//!
//! let settings = Settings { threads: 2, slots: 1, cells: 1, records: 2, threshold: 1, start: 0 };
//! let mut image = vec![0; words(&settings).unwrap()];
//! set_up(&mut image, &settings).unwrap();
//! let reply = step::<Idiomatic>(&mut image, Step::of(0, Operation::Allocate));
//! assert_eq!(reply, Reply { number: 0, value: 1 });
//! ```

pub mod layout;
#[cfg(feature = "library")]
pub mod library;
pub mod machine;
pub mod plain;
#[cfg(feature = "self-test")]
pub mod slips;
pub mod terms;
#[doc(hidden)]
pub mod testing;
