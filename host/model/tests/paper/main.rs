//! The model against document 01.

mod calls;
mod common;
mod numbers;
mod refusals;
mod sound;
