//! The sub-commands, one file for each.

pub mod aloud;
pub mod can;
pub mod check;
pub mod compile;
pub mod new;
pub mod plan;
pub mod play;
pub mod renumber;
pub mod report;
pub mod revise;
pub mod run;
pub mod source;
pub mod test;
pub mod try_it;
pub mod who;
pub mod why;

use crate::stop::Stop;
use std::io::Write;

/// A sub-command. Its `main` gets the arguments after its name and gives the
/// exit status.
pub struct Command {
    pub name: &'static str,
    /// What it does, in a few words.
    pub summary: &'static str,
    /// What `--help` prints.
    pub help: &'static str,
    pub main: fn(&[String], &mut dyn Write) -> Result<i32, Stop>,
}

/// All sub-commands, in the order in which a user meets them.
pub const COMMANDS: [Command; 16] = [
    Command {
        name: "new",
        summary: "create a folder with a source to start from",
        help: new::HELP,
        main: new::main,
    },
    Command {
        name: "compile",
        summary: "compile a readable source to terms.tsv and names.tsv",
        help: compile::HELP,
        main: compile::main,
    },
    Command {
        name: "aloud",
        summary: "read every policy and effect aloud",
        help: aloud::HELP,
        main: aloud::main,
    },
    Command {
        name: "check",
        summary: "say whether terms are accepted, and what is wrong if not",
        help: check::HELP,
        main: check::main,
    },
    Command {
        name: "run",
        summary: "make the requests of a folder and print the answers",
        help: run::HELP,
        main: run::main,
    },
    Command {
        name: "why",
        summary: "say why each request was granted or denied",
        help: why::HELP,
        main: why::main,
    },
    Command {
        name: "who",
        summary: "show who may do what to whom",
        help: who::HELP,
        main: who::main,
    },
    Command {
        name: "can",
        summary: "find the shortest way to a request that is granted",
        help: can::HELP,
        main: can::main,
    },
    Command {
        name: "plan",
        summary: "say whether a rival can keep a member from a goal",
        help: plan::HELP,
        main: plan::main,
    },
    Command {
        name: "report",
        summary: "draw a folder's story as one page of HTML",
        help: report::HELP,
        main: report::main,
    },
    Command {
        name: "try",
        summary: "make requests at a prompt",
        help: try_it::HELP,
        main: try_it::main,
    },
    Command {
        name: "play",
        summary: "edit terms and try them on a page in the browser",
        help: play::HELP,
        main: play::main,
    },
    Command {
        name: "test",
        summary: "run the tests of folders and show what fails",
        help: test::HELP,
        main: test::main,
    },
    Command {
        name: "revise",
        summary: "continue with new terms, and say what changes",
        help: revise::HELP,
        main: revise::main,
    },
    Command {
        name: "renumber",
        summary: "give the members new numbers, with the same answers",
        help: renumber::HELP,
        main: renumber::main,
    },
    Command {
        name: "source",
        summary: "write terms.tsv back as a readable source",
        help: source::HELP,
        main: source::main,
    },
];
