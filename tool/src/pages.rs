//! What the program says of itself: the overview, the manual page, and
//! completions for shells. All are made of the list of sub-commands.

use crate::commands::{Command, COMMANDS};
use crate::stop::Stop;

/// One rule for all sub-commands.
const STATUSES: &str = "\
0 done; 1 something was denied or failed, where that was asked for
(`run --strict`, `check --strict`, `test`, `aloud --verify`, `can`, `plan`); 2 a wrong
command line; 3 a file that cannot be read, written or compiled.
";

/// The files of a folder.
const FILES: &str = "\
terms.say         the terms as a source, which is what runs
terms.tsv         the terms that a host opens, compiled or stored with a past
names.tsv         the names that go with terms.tsv
definitions.tsv   the definitions that go with stored terms
requests.say      requests by name; requests.tsv has them by number
tests.say         tests
";

/// Where more is to be read. It is not installed with the page.
const MORE: &str = "\
In a checkout: docs/LANGUAGE.md tells how to write terms, docs/FORMAT.md what terms.tsv
is made of, and examples/ has folders to begin with.
";

/// What the script of a checkout does besides.
const INSTALL: &str = "\
In a checkout, `./cuckooormolu install [--prefix DIR]` puts the tool, its manual page and
completions for shells on a path of your choice.
";

/// What `--help` prints.
pub fn overview() -> String {
    let mut text = String::from("usage: cuckooormolu COMMAND ...\n\n");
    for command in &COMMANDS {
        text.push_str(&format!("  {:9} {}\n", command.name, command.summary));
    }
    text.push_str(
        "\n`cuckooormolu COMMAND --help` says more, `cuckooormolu --version` which version this is.\n",
    );
    text.push_str(INSTALL);
    text.push_str(&format!("Exit status: {STATUSES}"));
    text
}

/// The manual page, for `man`.
pub fn manual() -> String {
    let mut page = format!(
        ".TH CUCKOOORMOLU 1 \"\" \"cuckooormolu {}\"\n.SH NAME\ncuckooormolu \\- sharing terms \
         written with names, read aloud, checked, run and explained\n.SH SYNOPSIS\n\
         .B cuckooormolu\nCOMMAND ...\n.br\n.B cuckooormolu\n\\-\\-version\n.SH COMMANDS\n",
        env!("CARGO_PKG_VERSION")
    );
    for command in &COMMANDS {
        let name = roff(command.name);
        page.push_str(&format!(".SS {name}\n.nf\n{}\n.fi\n", roff(command.help.trim_end())));
    }
    page.push_str(&format!(".SH INSTALLATION\n{}\n", roff(INSTALL)));
    page.push_str(&format!(".SH EXIT STATUS\n{}\n", roff(STATUSES)));
    page.push_str(&format!(".SH FILES\n.nf\n{}\n.fi\n", roff(FILES)));
    page.push_str(&format!(".SH SEE ALSO\n{}\n", roff(MORE)));
    page
}

/// A text in which nothing is taken for a request of roff.
fn roff(text: &str) -> String {
    let line = |line: &str| {
        let line = line.replace('\\', "\\e").replace('-', "\\-");
        if line.starts_with(['.', '\'']) {
            format!("\\&{line}\n")
        } else {
            format!("{line}\n")
        }
    };
    text.lines().map(line).collect::<String>().trim_end().to_string()
}

/// The options that a sub-command's help tells of.
pub fn options(command: &Command) -> Vec<&'static str> {
    let lines = command.help.lines().filter_map(|line| line.strip_prefix("  "));
    let words = lines.filter_map(|line| line.split([' ', ',']).next());
    words.filter(|word| word.len() > 1 && word.starts_with('-')).collect()
}

/// The completions for a shell: sub-commands, their options, then files.
pub fn completion(shell: &str) -> Result<String, Stop> {
    match shell {
        "bash" => Ok(bash()),
        "zsh" => Ok(zsh()),
        "fish" => Ok(fish()),
        _ => Err(Stop::Usage(format!("no completions for `{shell}`: bash, zsh or fish"))),
    }
}

fn names() -> String {
    COMMANDS.map(|command| command.name).join(" ")
}

fn bash() -> String {
    let case = |command: &Command| {
        format!("    {}) words='{}' ;;\n", command.name, options(command).join(" "))
    };
    format!(
        "_cuckooormolu() {{\n    local words current=${{COMP_WORDS[COMP_CWORD]}}\n    \
         if [ \"$COMP_CWORD\" -eq 1 ]; then\n        \
         COMPREPLY=($(compgen -W '{} help' -- \"$current\"))\n        return\n    fi\n    \
         case ${{COMP_WORDS[1]}} in\n{}    help) words='{}' ;;\n    esac\n    \
         COMPREPLY=($(compgen -W \"$words\" -- \"$current\"))\n    \
         [ \"${{COMP_WORDS[1]}}\" = help ] || COMPREPLY+=($(compgen -f -- \"$current\"))\n}}\n\
         complete -o filenames -F _cuckooormolu cuckooormolu\n",
        names(),
        COMMANDS.iter().map(case).collect::<String>(),
        names(),
    )
}

fn zsh() -> String {
    let named = |command: &Command| {
        format!("    '{}:{}'\n", command.name, command.summary.replace('\'', ""))
    };
    let case = |command: &Command| {
        format!("    {}) compadd -- {} ;;\n", command.name, options(command).join(" "))
    };
    format!(
        "#compdef cuckooormolu\nlocal -a commands\ncommands=(\n{})\nif (( CURRENT == 2 )); then\n    \
         _describe command commands\nelse\n    case $words[2] in\n{}    esac\n    _files\nfi\n",
        COMMANDS.iter().map(named).collect::<String>(),
        COMMANDS.iter().map(case).collect::<String>(),
    )
}

fn fish() -> String {
    let mut text = String::new();
    for command in &COMMANDS {
        let (name, summary) = (command.name, command.summary.replace('\'', ""));
        text.push_str(&format!(
            "complete -c cuckooormolu -n __fish_use_subcommand -a {name} -d '{summary}'\n"
        ));
        for option in options(command) {
            let option = match option.strip_prefix("--") {
                Some(long) => format!("-l {long}"),
                None => format!("-s {}", option.trim_start_matches('-')),
            };
            text.push_str(&format!(
                "complete -c cuckooormolu -n '__fish_seen_subcommand_from {name}' {option}\n"
            ));
        }
    }
    text
}

#[cfg(test)]
mod tests {
    use super::*;

    #[test]
    fn options_are_those_of_the_help() {
        let run = COMMANDS.iter().find(|command| command.name == "run").unwrap();
        let found = options(run);
        for option in ["--strict", "--json", "--store", "--write"] {
            assert!(found.contains(&option), "{found:?}");
        }
    }

    #[test]
    fn pages_name_every_command() {
        let pages = [manual(), bash(), zsh(), fish()];
        for command in &COMMANDS {
            assert!(pages.iter().all(|page| page.contains(command.name)), "{}", command.name);
        }
        assert!(completion("tcsh").is_err());
    }

    #[test]
    fn the_page_has_its_parts_once() {
        let page = manual();
        for part in ["EXIT STATUS\n0 done", "FILES\n.nf\nterms.say", "SEE ALSO\n", "\\-\\-version"]
        {
            assert_eq!(page.matches(part).count(), 1, "{part}");
        }
    }

    #[test]
    fn help_fits_a_terminal() {
        for command in &COMMANDS {
            let long = command.help.lines().find(|line| line.chars().count() > 90);
            assert_eq!(long, None, "{}", command.name);
        }
        assert!(overview().lines().all(|line| line.chars().count() <= 95), "{}", overview());
    }

    #[test]
    fn roff_takes_text_as_it_is() {
        assert_eq!(roff(".a -b \\"), "\\&.a \\-b \\e");
    }
}
