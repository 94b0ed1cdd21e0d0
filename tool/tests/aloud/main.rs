//! Terms read aloud.

mod alike;
mod examples;
mod meaning;
mod sentences;
mod small;
