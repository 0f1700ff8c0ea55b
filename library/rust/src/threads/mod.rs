//! What slabs and tables know of the threads that use them. A thread has a small number and a slot for it, and its end
//! gives back what it has.
mod marks;
mod number;
mod slots;
mod taken;
#[cfg(test)]
pub(crate) mod turns;

pub(crate) use marks::{mark, Alone};
pub(crate) use number::number;
pub(crate) use slots::{Leave, Slots};
pub(crate) use taken::Taken;
