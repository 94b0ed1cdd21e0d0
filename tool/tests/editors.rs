//! The highlighting for editors knows every word of the language, and no other. The grammar for TextMate is tried on
//! lines, and on every source of the examples.

#[path = "editors/pattern.rs"]
mod pattern;

use cuckooormolu_tool::json::read::{read, Value};
use cuckooormolu_tool::source::tokens::{tokens, Token, WORDS};
use pattern::Pattern;
use std::collections::BTreeSet;
use std::fs;
use std::path::Path;

/// Words of tests.say.
const MORE: [&str; 5] = ["test", "given", "may", "because", "only"];
/// Words only where others follow.
const BEFORE: [(&str, &str); 2] = [("keep", "denied"), ("said", "\"")];

fn here() -> &'static Path {
    Path::new(env!("CARGO_MANIFEST_DIR"))
}

fn file(name: &str) -> String {
    fs::read_to_string(here().join("editors").join(name)).unwrap()
}

fn known() -> BTreeSet<String> {
    let before = BEFORE.iter().map(|(word, _)| word);
    WORDS.iter().chain(&MORE).chain(before).map(|word| word.to_string()).collect()
}

#[test]
fn vim() {
    let syntax = file("vim/syntax/say.vim");
    let keywords = syntax.lines().filter_map(|line| line.strip_prefix("syntax keyword "));
    let mut words: BTreeSet<String> =
        keywords.flat_map(|line| line.split(' ').skip(1)).map(str::to_string).collect();
    for (word, match_) in [
        ("test", "\"^\\s*test\\>"),
        ("keep", "\"\\<keep\\ze\\s\\+denied\\>\""),
        ("said", "\"\\<said\\ze\\s*\\\"\""),
    ] {
        assert!(syntax.contains(match_), "{word}");
        words.insert(word.to_string());
    }
    assert_eq!(words, known());
    let groups = syntax.lines().filter_map(|line| line.strip_prefix("highlight default link "));
    let groups: BTreeSet<&str> = groups.filter_map(|line| line.split(' ').next()).collect();
    let used = syntax.lines().filter(|line| line.starts_with("syntax ") && line.contains(" say"));
    for line in used {
        let group = line.split(' ').find(|word| word.starts_with("say")).unwrap();
        assert!(groups.contains(group), "{group} has no colour");
    }
}

/// A rule of the grammar: what it matches, the scope of all of it, and of its groups.
struct Rule {
    pattern: Pattern,
    scope: Option<String>,
    groups: Vec<(usize, String)>,
}

/// The grammar as an editor reads it: at each place of a line the rule that matches first.
struct Grammar(Vec<Rule>);

impl Grammar {
    fn new() -> Grammar {
        let grammar = read(&file("say.tmLanguage.json")).expect("JSON");
        assert_eq!(grammar.field("scopeName").and_then(Value::text), Some("source.say"));
        let text =
            |value: &Value, name: &str| value.field(name).and_then(Value::text).map(str::to_string);
        let rules = grammar.field("patterns").and_then(Value::list).unwrap().iter().map(|rule| {
            let captures = rule.field("captures");
            let group = |number: usize| {
                Some((number, text(captures?.field(&number.to_string())?, "name")?))
            };
            Rule {
                pattern: Pattern::new(&text(rule, "match").expect("every rule is a match")),
                scope: text(rule, "name"),
                groups: (1..10).filter_map(group).collect(),
            }
        });
        Grammar(rules.collect())
    }

    /// For each letter of a line its scope.
    fn scopes(&self, line: &str) -> Vec<Option<&str>> {
        let line: Vec<char> = line.chars().collect();
        let mut scopes = vec![None; line.len()];
        let mut place = 0;
        while place < line.len() {
            let found = self.0.iter().filter_map(|rule| {
                let found = rule.pattern.find(&line, place)?;
                Some((rule, found)).filter(|(_, found)| found[0].is_some_and(|(a, b)| a < b))
            });
            // Of those that begin at the same place, the first rule counts.
            let first = found.min_by_key(|(_, found)| found[0].map(|(start, _)| start));
            let Some((rule, found)) = first else { break };
            let (start, end) = found[0].unwrap();
            scopes[start..end].fill(rule.scope.as_deref());
            for (number, scope) in &rule.groups {
                if let Some((start, end)) = found[*number] {
                    scopes[start..end].fill(Some(scope.as_str()));
                }
            }
            place = end;
        }
        scopes
    }

    /// The stretches of a line with a scope, as `text=kind`, where a kind is the first word of a scope.
    fn told(&self, line: &str) -> Vec<String> {
        let mut told: Vec<(String, Option<&str>)> = Vec::new();
        for (letter, scope) in line.chars().zip(self.scopes(line)) {
            match told.last_mut() {
                Some((text, last)) if *last == scope => text.push(letter),
                _ => told.push((letter.to_string(), scope)),
            }
        }
        let shown = |(text, scope): (String, Option<&str>)| {
            let kind = scope?.split('.').next()?;
            Some(format!("{}={kind}", text.trim()))
        };
        told.into_iter().filter_map(shown).collect()
    }
}

#[test]
fn textmate_on_lines() {
    let grammar = Grammar::new();
    for (line, wanted) in [
        ("members a, me-too # me", "members=keyword ,=punctuation # me=comment"),
        (
            "event peek said \"peeked at\" when",
            "event=keyword said=keyword \"peeked at\"=string when=keyword",
        ),
        ("  when me is not keep", "when=keyword me=variable is=keyword not=keyword"),
        ("keep denied load", "keep=keyword denied=keyword"),
        ("event keep by anyone", "event=keyword by=keyword anyone=variable"),
        ("at least 3 x: f", "at=keyword least=keyword 3=constant :=punctuation"),
        ("true or x3 or 3x", "true=constant or=keyword or=keyword"),
        ("reach(ümember, member)", "reach=invalid ,=punctuation member=keyword"),
        ("test a member may # x", "test=keyword a member may=entity # x=comment"),
        ("  test-drive, b", ",=punctuation"),
        ("  given dora share pete", "given=keyword"),
        ("only pete may load because dora", "only=keyword may=keyword because=keyword"),
        ("event x said \"a # b\"", "event=keyword said=keyword \"a # b\"=string"),
    ] {
        assert_eq!(grammar.told(line).join(" "), wanted, "{line}");
    }
}

/// In every source of the examples, words of the language and comments have a scope, and names have none.
#[test]
fn textmate_on_the_examples() {
    let (grammar, mut count) = (Grammar::new(), 0);
    for folder in fs::read_dir(here().join("../examples")).unwrap() {
        let file = folder.unwrap().path().join("terms.say");
        let Ok(text) = fs::read_to_string(&file) else { continue };
        let mut scopes = Vec::new();
        for line in text.split_inclusive('\n') {
            scopes.extend(grammar.scopes(line.trim_end_matches('\n')));
            scopes.extend(line.ends_with('\n').then_some(None));
        }
        let (found, mistakes) = tokens(&text);
        assert!(mistakes.is_empty());
        for (index, (token, span)) in found.iter().enumerate() {
            let Token::Word(word) = token else { continue };
            let next = match found.get(index + 1) {
                Some((Token::Word(next), _)) => next.as_str(),
                Some((Token::Quoted(_), _)) => "\"",
                _ => "",
            };
            let is_word = WORDS.contains(&word.as_str()) || BEFORE.contains(&(word, next));
            let start = text[..span.start].chars().count();
            let own = &scopes[start..start + word.chars().count()];
            let well = own.iter().all(|scope| scope.is_some() == is_word);
            assert!(well, "{}: {word}: {:?}", file.display(), own[0]);
            count += 1;
        }
    }
    assert!(count > 1_000, "{count}");
}

/// The grammar knows every word, and no other.
#[test]
fn textmate_words() {
    let grammar = Grammar::new();
    for word in WORDS {
        assert!(grammar.scopes(word).iter().all(Option::is_some), "{word}");
        for name in
            [format!("{word}x"), format!("x-{word}"), format!("{word}-x"), format!("_{word}")]
        {
            assert!(grammar.scopes(&name).iter().all(Option::is_none), "{name}");
        }
    }
}
