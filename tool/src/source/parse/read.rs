//! Reads a whole source, statement by statement, over mistakes.

use super::*;
use std::ops::Range;

/// Reads a whole source, or tells all that is wrong with it.
pub fn parse(text: &str) -> Result<Source, Vec<Mistake>> {
    let read = read(text);
    if read.mistakes.is_empty() {
        Ok(read.source)
    } else {
        Err(read.mistakes)
    }
}

/// What could be read of a source.
#[derive(Default)]
pub struct Read {
    pub source: Source,
    pub mistakes: Vec<Mistake>,
    /// What is accepted and seldom meant.
    pub warnings: Vec<Mistake>,
    /// The words of statements that could not be read: any of them may be a name
    /// that is missed elsewhere.
    pub doubtful: HashSet<String>,
    /// Where these statements stand.
    passed: Vec<Range<usize>>,
}

/// Reads what can be read. A statement with a mistake is passed over.
pub fn read(text: &str) -> Read {
    let (tokens, unknown) = tokens(text);
    let first = |span: &Span| {
        let before = text[..span.start].rsplit('\n').next().unwrap_or("");
        before.chars().all(char::is_whitespace)
    };
    let events = declared(&tokens, &STATEMENTS[4..6]);
    let (declared, defined) = (declared(&tokens, &STATEMENTS[2..6]), defined(&tokens));
    let begins = tokens.iter().map(|(_, span)| first(span)).collect();
    let (kinds, members) = members(&tokens);
    let mut parser =
        Parser { tokens, begins, declared, events, defined, kinds, members, ..Parser::default() };
    let mut read = Read::default();
    while *parser.token() != Token::End {
        let (first, start) = (parser.next, parser.span());
        let mut source = Source::default();
        match parser.statement(&mut source) {
            Ok(()) => read.source.add(source),
            Err(mistake) => {
                let stopped = parser.span().start.max(mistake.span.start);
                parser.pass_over(first);
                let words = parser.tokens[first..parser.next].iter();
                read.doubtful.extend(words.filter_map(|(token, _)| match token {
                    Token::Word(word) => Some(word.clone()),
                    _ => None,
                }));
                // One mistake a statement is enough.
                let within = |other: &&Mistake| {
                    (start.start..parser.span().start).contains(&other.span.start)
                };
                let met =
                    unknown.iter().filter(within).map(|other| (other.span.start, other.clone()));
                let earliest = met.chain([(stopped, mistake)]).min_by_key(|(place, _)| *place);
                read.mistakes.extend(earliest.map(|(_, mistake)| mistake));
                read.passed.push(start.start..parser.span().start);
            }
        }
    }
    for mistake in unknown {
        let passed = read.passed.iter().any(|part| part.contains(&mistake.span.start));
        let told = |other: &Mistake| other.advice == mistake.advice;
        if !passed && !read.mistakes.iter().any(told) {
            read.mistakes.push(mistake);
        }
    }
    read.mistakes.sort_by_key(|mistake| mistake.span.start);
    read.warnings = parser.warnings;
    read
}

/// Reads a formula that stands alone, given the names of relations and events.
pub fn formula(text: &str, declared: HashSet<String>) -> Result<Formula, Mistake> {
    let (tokens, unknown) = tokens(text);
    if let Some(mistake) = unknown.into_iter().next() {
        return Err(mistake);
    }
    let begins = vec![false; tokens.len()];
    let mut parser = Parser { tokens, begins, declared, ..Parser::default() };
    let formula = parser.formula()?;
    match parser.token() {
        Token::End => Ok(formula),
        _ => Err(parser.stray(&[])),
    }
}

/// The names after `relation` or `event`: the first, and each after a comma.
fn declared(tokens: &[(Token, Span)], statements: &[&str]) -> HashSet<String> {
    let mut declared = HashSet::new();
    let (mut within, mut due) = (false, false);
    for (token, _) in tokens {
        match token {
            Token::Word(word) if statements.contains(&word.as_str()) => {
                (within, due) = (true, true)
            }
            Token::Word(word) if WORDS.contains(&word.as_str()) => within = false,
            Token::Word(word) if within && due => {
                declared.insert(word.clone());
                due = false;
            }
            Token::Sign(',') => due = true,
            _ => {}
        }
    }
    declared
}

/// The kinds of members, which are the words before a `:` after `members`, and the members.
fn members(tokens: &[(Token, Span)]) -> (Vec<String>, HashSet<String>) {
    let (mut kinds, mut members) = (Vec::new(), HashSet::new());
    let mut within = false;
    for pair in tokens.windows(2) {
        let Token::Word(word) = &pair[0].0 else { continue };
        if WORDS.contains(&word.as_str()) {
            within = STATEMENTS[..2].contains(&word.as_str());
        } else if within && pair[1].0 == Token::Sign(':') {
            kinds.push(word.clone());
        } else if within {
            members.insert(word.clone());
        }
    }
    (kinds, members)
}

/// The names of definitions.
fn defined(tokens: &[(Token, Span)]) -> HashSet<String> {
    let word = |place: usize| match tokens.get(place) {
        Some((Token::Word(word), _)) => Some(word.as_str()),
        _ => None,
    };
    let heads = (0..tokens.len()).filter(|place| word(*place) == Some("define"));
    let names = heads.filter_map(|place| match [1, 2, 3].map(|after| word(place + after)) {
        [_, Some("is"), name] => name,
        [_, Some(name), Some(_)] => Some(name),
        [name, ..] => name,
    });
    names.map(str::to_string).collect()
}
