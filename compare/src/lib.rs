//! A model of the agreement in plain Rust, and the linked library that it is compared with.

// The model.
pub mod books;
pub mod faults;
pub mod procedures;
pub mod received;
pub mod rules;
pub mod runs;
pub mod seat;
pub mod sets;
pub mod slips;

// The library, and how the two are compared.
pub mod any;
pub mod cases;
pub mod checks;
pub mod flat;
pub mod following;
pub mod library;
pub mod promise;
pub mod random;
pub mod tally;
pub mod texts;
