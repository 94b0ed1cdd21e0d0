//! The tool for people: terms written with names, read aloud, checked, run,
//! explained and drawn.
//!
//! * `both`: every acceptance and verdict, from the proved library and from the
//!   keeper of the whole record; `bank`: the banks that a request may be of
//! * `names`, `folder`, `storing`: the names of members, relations and events; a folder's files
//! * `source`: the source language, compiled and written back
//! * `replay`, `words`, `matrix`: the requests made one by one; words for them; who may do what
//! * `session`: the same for two banks, too
//! * `why`: why a request is granted or denied
//! * `report`: a folder's story as one page
//! * `requests`: requests by name
//! * `revise`: a monitor that goes on with new terms; `renumber`: members with new numbers
//! * `plan`: whether a rival can keep a member from a goal
//! * `reach`: the shortest way to a request that is granted
//! * `trial`, `editing`: requests made and taken back at a prompt; a line edited at a terminal
//! * `watch`: doing something again when files change
//! * `testing`: tests that people write; `play`: a page to edit terms in and try them
//! * `aloud`: every policy and effect as a sentence
//! * `check`: what is wrong with a terms file, and what may be
//! * `commands`: one file for each sub-command
//! * `pages`: the overview, the manual page and completions for shells
//! * `arguments`, `http`, `json`, `stop`: what the sub-commands share

pub mod aloud;
pub mod arguments;
pub mod bank;
pub mod both;
pub mod check;
pub mod commands;
pub mod editing;
pub mod folder;
pub mod http;
pub mod json;
pub mod matrix;
pub mod names;
pub mod pages;
pub mod plan;
pub mod play;
pub mod reach;
pub mod renumber;
pub mod replay;
pub mod report;
pub mod requests;
pub mod revise;
pub mod session;
pub mod source;
pub mod stop;
pub mod storing;
pub mod testing;
pub mod trial;
pub mod watch;
pub mod why;
pub mod words;
