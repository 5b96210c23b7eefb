//! The Rust side of the bench: document 01 in plain Rust, a second naive program of it, the
//! proved library behind the same trait, and what holds them against each other.

pub mod clock;
pub mod differ;
pub mod histories;
pub mod model;
pub mod naive;
pub mod script;
pub mod store;

#[cfg(feature = "library")]
pub mod library;

#[cfg(feature = "faults")]
pub mod faults {
    //! Copies of src/model.rs with one planted fault each, made by build.rs.
    include!(concat!(env!("OUT_DIR"), "/faults.rs"));
}
