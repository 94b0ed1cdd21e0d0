//! A source text cut into words, numbers and signs.

use super::ast::Span;
use super::mistake::Mistake;

/// The words of the language; none of them can be a name.
#[rustfmt::skip]
pub const WORDS: [&str; 43] = [
    "member", "members", "relation", "relations", "event", "events", "define", "first", "when", "by",
    "anyone", "then", "add", "remove", "me", "target", "here", "someone", "nobody", "is", "of", "as",
    "at", "least", "some", "every", "not", "and", "or", "since", "once", "always", "never",
    "previously", "true", "false", "both", "ways", "such", "that", "reach", "many", "denied",
];

/// Words of English that nobody and nothing would be called by.
#[rustfmt::skip]
pub const ENGLISH: [&str; 34] = [
    "the", "a", "an", "my", "your", "his", "her", "its", "our", "their", "may", "can", "must", "will",
    "should", "was", "were", "are", "been", "be", "has", "have", "had", "do", "does", "did", "before",
    "after", "until", "while", "for", "with", "to", "from",
];

#[derive(Clone, Debug, PartialEq, Eq)]
pub enum Token {
    Word(String),
    Number(usize),
    Sign(char),
    /// What stands in double quotes after `said`.
    Quoted(String),
    End,
}

/// Some editors begin a file with it.
const BYTE_ORDER_MARK: char = '\u{feff}';

/// Cuts a text; the last token is the end. `#` begins a comment that goes to
/// the end of its line. What means nothing is told and passed over.
pub fn tokens(text: &str) -> (Vec<(Token, Span)>, Vec<Mistake>) {
    let (mut found, mut mistakes) = (Vec::new(), Vec::new());
    let mut place = 0;
    while let Some(letter) = text[place..].chars().next() {
        let rest = &text[place..];
        let length = if letter.is_whitespace() || letter == BYTE_ORDER_MARK {
            letter.len_utf8()
        } else if letter == '#' {
            rest.find('\n').unwrap_or(rest.len())
        } else {
            let after = matches!(found.last(), Some((Token::Word(word), _)) if word == "said");
            let said = letter == '"' && after;
            let token = match said {
                true => quoted(rest, place),
                false if after && QUOTES.contains(&letter) => {
                    found.push((Token::Quoted(String::new()), Span { start: place, end: place }));
                    Err(other_quotes(rest, place))
                }
                false => token(rest, letter, place),
            };
            match token {
                Ok((token, length)) => {
                    found.push((token, Span { start: place, end: place + length }));
                    length
                }
                // It may stand inside a name, so that nothing can be said of the rest.
                Err(mistake) if letter.is_control() => {
                    return (vec![(Token::End, mistake.span)], vec![mistake]);
                }
                Err(mistake) => {
                    let marked = mistake.span.end - mistake.span.start;
                    // Words that are not closed go to the end of their line.
                    let open = said && marked == 1;
                    let length =
                        if open { rest.lines().next().map_or(1, str::len) } else { marked };
                    if said {
                        found.push((Token::Quoted(String::new()), mistake.span));
                    }
                    mistakes.push(mistake);
                    length
                }
            }
        };
        place += length;
    }
    found.push((Token::End, Span { start: text.trim_end().len(), end: text.trim_end().len() }));
    (found, mistakes)
}

fn token(rest: &str, letter: char, place: usize) -> Result<(Token, usize), Mistake> {
    let length =
        |goes_on: fn(char) -> bool| rest.find(|letter| !goes_on(letter)).unwrap_or(rest.len());
    if letter.is_alphabetic() || letter == '_' {
        let length = length(|letter| letter.is_alphanumeric() || letter == '_' || letter == '-');
        return Ok((Token::Word(rest[..length].to_string()), length));
    }
    if letter.is_ascii_digit() {
        let length = match length(char::is_alphanumeric) {
            // `808-kick` is one word that was meant.
            digits if rest[digits..].starts_with(['-', '_']) => {
                length(|letter| letter.is_alphanumeric() || letter == '-' || letter == '_')
            }
            digits => digits,
        };
        let span = Span { start: place, end: place + length };
        let number = rest[..length].parse();
        let number = number.map_err(|_| {
            Mistake::new(span, format!("`{}` is neither a number nor a name", &rest[..length]))
                .advise(format!("a name begins with a letter, such as `n{}`", &rest[..length]))
        })?;
        return Ok((Token::Number(number), length));
    }
    if ":,;()".contains(letter) {
        return Ok((Token::Sign(letter), 1));
    }
    Err(unknown(rest, letter, place))
}

/// Words in double quotes, which end on their line.
fn quoted(rest: &str, place: usize) -> Result<(Token, usize), Mistake> {
    let line = rest[1..].lines().next().unwrap_or("");
    match line.find('"') {
        Some(end) if !line[..end].trim().is_empty() => {
            Ok((Token::Quoted(line[..end].trim().to_string()), end + 2))
        }
        Some(_) => Err(Mistake::new(Span { start: place, end: place + 2 }, "nothing is said here")
            .advise("like this: `event peek said \"peeked at\"`")),
        None => Err(Mistake::new(Span { start: place, end: place + 1 }, "this `\"` is not closed")
            .advise("put a `\"` after the words, on the same line")),
    }
}

/// `said 'played'` or with curly quotes: all of it up to the other quote.
fn other_quotes(rest: &str, place: usize) -> Mistake {
    let line = rest.lines().next().unwrap_or("");
    let inner = line.trim_start_matches(QUOTES);
    let words = inner.split(QUOTES).next().unwrap_or("").trim();
    let close = line.char_indices().skip(1).find(|(_, letter)| QUOTES.contains(letter));
    let length = close.map_or(line.len(), |(at, letter)| at + letter.len_utf8());
    Mistake::new(Span { start: place, end: place + length }, "these quotes have no meaning here")
        .advise(format!("use straight double quotes: `said \"{words}\"`"))
}

/// Signs of other languages, and what is written here instead.
const ELSEWHERE: [(&str, &str); 14] = [
    ("&&", "write `and`"),
    ("||", "write `or`"),
    ("&", "write `and`"),
    ("|", "write `or`"),
    ("!=", "write `is not`"),
    ("==", "write `is`"),
    ("=", "write `is`, or `:` after the head of a definition"),
    ("!", "write `not`"),
    ("~", "write `not`"),
    ("//", "a comment begins with `#`"),
    ("/*", "a comment begins with `#`, on each of its lines"),
    ("--", "a comment begins with `#`"),
    ("->", "write from, relation, to: `dora owns saw`"),
    (".", "delete it: nothing ends a statement"),
];

/// How `target's owner` and `target.owner` are said.
const LOOKED_FOR: &str = "somebody's owner has to be looked for: `some owner owns target: ...`";

/// Marks that names are put into elsewhere.
const QUOTES: [char; 8] = ['"', '\'', '`', '“', '”', '„', '‘', '’'];

/// Whether this is the end of `isn't`.
fn is_contracted(rest: &str) -> bool {
    let after = rest.strip_prefix(['\'', '’']).and_then(|rest| rest.strip_prefix('t'));
    after.is_some_and(|after| after.starts_with([' ', '\n']))
}

fn unknown(rest: &str, letter: char, place: usize) -> Mistake {
    let end = place + letter.len_utf8();
    if is_contracted(rest) {
        let message = format!("`{letter}` has no meaning here");
        return Mistake::new(Span { start: place, end }, message).advise(
            "words are written out: `target is not preset`, or `not` before a sentence, `not me owns target`",
        );
    }
    let possessive = rest.strip_prefix(['\'', '’']).and_then(|rest| rest.strip_prefix("s "));
    if possessive.is_some() {
        let message = format!("`{letter}s` has no meaning here");
        return Mistake::new(Span { start: place, end: end + 1 }, message).advise(LOOKED_FOR);
    }
    if QUOTES.contains(&letter) {
        let message = format!("`{letter}` has no meaning here");
        return Mistake::new(Span { start: place, end }, message).advise(
            "names are written without quotes; a name of two words is joined by `-`: warm-pad",
        );
    }
    if letter.is_control() {
        let message = format!("an invisible character, U+{:04X}", letter as u32);
        return Mistake::new(Span { start: place, end }, message).advise("delete it");
    }
    if rest.strip_prefix('.').is_some_and(|rest| rest.starts_with(char::is_alphabetic)) {
        return Mistake::new(Span { start: place, end }, "`.` has no meaning here")
            .advise(LOOKED_FOR);
    }
    let found = ELSEWHERE.iter().find(|(sign, _)| rest.starts_with(sign));
    let length = found.map_or(letter.len_utf8(), |(sign, _)| sign.len());
    let span = Span { start: place, end: place + length };
    let mistake = Mistake::new(span, format!("`{}` has no meaning here", &rest[..length]));
    let instead =
        found.map_or("the signs are `:`, `,`, `(`, `)` and, before a comment, `#`", |f| f.1);
    mistake.advise(instead)
}
