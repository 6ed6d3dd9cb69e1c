//! Doubt held to the chips' histories (request 8/12): a history is an allowed order of the records shown, a start value for
//! every bit and the choices at each cut; a bit is marked exactly when two histories end with different values there, and
//! the same holds of each byte that is read.

mod bytes;
mod check;
mod choices;
mod history;
mod met;
mod seen;
#[cfg(test)]
mod tests;
mod tried;

pub use check::{check, Plan};
