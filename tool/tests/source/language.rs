//! What docs/LANGUAGE.md shows is what the compiler does.

use cuckooormolu_tool::source::tokens::WORDS;
use cuckooormolu_tool::source::{compile, decompile::differing};
use keeper::terms;
use std::fs;
use std::io::Write;
use std::path::Path;
use std::process::{Command, Stdio};

fn document() -> String {
    let path = Path::new(env!("CARGO_MANIFEST_DIR")).join("../docs/LANGUAGE.md");
    fs::read_to_string(path).unwrap()
}

/// The indented blocks after a heading.
fn blocks(text: &str, heading: &str) -> Vec<String> {
    let rest = text.split_once(&format!("\n## {heading}\n")).expect("the heading").1;
    let section = rest.split("\n## ").next().unwrap();
    let mut blocks = vec![String::new()];
    for line in section.lines() {
        match line.strip_prefix("    ") {
            Some(code) => blocks.last_mut().unwrap().push_str(&format!("{code}\n")),
            None if line.is_empty() => blocks.last_mut().unwrap().push('\n'),
            None => blocks.push(String::new()),
        }
    }
    blocks.into_iter().filter(|block| !block.trim().is_empty()).collect()
}

#[test]
fn the_tutorial_compiles_to_the_preset_terms() {
    let compiled = compile(&blocks(&document(), "Five minutes")[0]).unwrap();
    let preset = Path::new(env!("CARGO_MANIFEST_DIR")).join("../examples/preset/terms.tsv");
    let preset = terms::read(&fs::read(preset).unwrap()).unwrap().terms;
    assert!(differing(&compiled.terms, &preset).is_empty());
    assert_eq!(compiled.terms.edges, preset.edges);
}

/// The tutorial's other steps print what it says.
#[test]
fn the_tutorial_can_be_followed() {
    let blocks = blocks(&document(), "Five minutes");
    let folder = Path::new(env!("CARGO_TARGET_TMPDIR")).join("tutorial");
    fs::create_dir_all(folder.join("mine")).unwrap();
    fs::write(folder.join("mine/terms.say"), &blocks[0]).unwrap();
    for older in ["mine/requests.say", "mine/requests.tsv"] {
        let _ = fs::remove_file(folder.join(older));
    }
    let run = |arguments: &[&str], input: &str| {
        let mut command = Command::new(env!("CARGO_BIN_EXE_cuckooormolu"));
        command.args(arguments).current_dir(&folder).stdin(Stdio::piped()).stdout(Stdio::piped());
        let mut child = command.spawn().unwrap();
        child.stdin.take().unwrap().write_all(input.as_bytes()).unwrap();
        String::from_utf8(child.wait_with_output().unwrap().stdout).unwrap()
    };
    let started = compile(cuckooormolu_tool::commands::new::START).unwrap();
    assert_eq!(started.terms, compile(&blocks[0]).unwrap().terms);
    let typed: Vec<&str> = blocks[2].lines().collect();
    let typed = &typed[1..typed.iter().position(|line| *line == "quit").unwrap() + 1];
    for command in ["compile", "aloud"] {
        let printed = run(&[command, "mine"], "");
        let begins = format!("$ cuckooormolu {command} mine\n");
        let mut parts = blocks.iter().map(|block| block.trim_start());
        let part = parts.find(|block| block.starts_with(&begins)).unwrap();
        let part = part.split_once('\n').unwrap().1.trim();
        assert!(printed.contains(part), "{command}:\n{printed}");
    }
    run(&["try", "mine"], &format!("{}\n", typed.join("\n")));
    let answers = run(&["run", "mine", "--json"], "");
    let granted = |line: &str| !line.contains("den");
    let answers: Vec<bool> = answers.lines().map(granted).collect();
    assert_eq!(answers, [false, true, true, true, false]);
    assert!(run(&["why", "mine"], "").contains("withdraw"));
    assert!(run(&["who", "mine", "load"], "").contains("pete"));
    run(&["report", "mine", "-o", "mine.html"], "");
    assert!(fs::read_to_string(folder.join("mine.html")).unwrap().contains("pete"));
}

#[test]
fn the_definitions_and_effects_compile() {
    let start =
        "members a, b\nrelations friend, blocks\nevents share, withdraw, report by anyone\n";
    for heading in ["Definitions", "Effects"] {
        for block in blocks(&document(), heading) {
            let text = format!("{start}{block}");
            compile(&text).unwrap_or_else(|mistake| panic!("{mistake:?}"));
        }
    }
}

#[test]
fn the_denied_tries_compile() {
    let block = blocks(&document(), "Denied tries").concat();
    let twice = "me denied load someone and previously once me denied load someone";
    assert!(document().contains(&format!("`{twice}`")));
    let text = format!("{block}\nevent suspend when {twice}\n");
    let compiled = compile(&text).unwrap_or_else(|mistake| panic!("{mistake:?}"));
    assert!(compiled.terms.kept.iter().eq([&0]));
    assert_eq!(compiled.terms.events, 3);
}

#[test]
fn the_grammar_has_every_word() {
    let document = document();
    let grammar = blocks(&document, "Grammar").concat();
    for word in WORDS {
        let plural = format!("{word}s");
        let shown = grammar.contains(&format!("\"{word}\""))
            || grammar.contains(&format!("\"{plural}\""))
            || document.contains(&format!("`{word}`"));
        assert!(shown, "{word} isn't in the grammar");
    }
}

#[test]
fn what_a_request_may_cost_is_told_as_shown() {
    let blocks = blocks(&document(), "What a request may cost");
    let folder = Path::new(env!("CARGO_TARGET_TMPDIR")).join("cost/mine");
    fs::create_dir_all(&folder).unwrap();
    let check = |source: &str| {
        fs::write(folder.join("terms.say"), source).unwrap();
        let mut command = Command::new(env!("CARGO_BIN_EXE_cuckooormolu"));
        let said = command.args(["check", "mine"]).current_dir(folder.join("..")).output().unwrap();
        String::from_utf8(said.stdout).unwrap()
    };
    let shown = blocks[0].trim().split_once('\n').unwrap().1;
    assert_eq!(check(cuckooormolu_tool::commands::new::START).trim(), shown);
    let members: Vec<String> = (0..64).map(|member| format!("m{member}")).collect();
    let declared = format!("members {}\nrelation friend\nfirst m0 friend m1\n", members.join(", "));
    let said = check(&format!("{declared}{}", blocks[1]));
    assert!(said.contains("speaks of 3 members who are sought one inside the other"), "{said}");
}
