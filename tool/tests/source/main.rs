//! The source language: what it means, what is wrong with it, and the way back.

mod command;
mod evaluate;
mod examples;
mod forms;
mod generate;
mod language;
mod mistakes;
mod random;
mod returned;
