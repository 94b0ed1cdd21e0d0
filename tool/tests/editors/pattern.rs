//! The regular expressions that the grammar is written in: groups, alternatives, `?`, `*`, `+`, classes, `^`, `$`,
//! and looking around. An editor's own engine knows many more.

/// A part of an expression.
enum Part {
    Letter(char),
    Any,
    /// One of these letters and classes, or none of them.
    Class(Vec<Item>, bool),
    Start,
    End,
    Group(Option<usize>, Vec<Vec<Part>>),
    /// Alternatives that must, or must not, follow or stand before.
    Look(Vec<Vec<Part>>, Side, bool),
    /// A part so often at least and at most, as often as can be.
    Repeat(Box<Part>, usize, usize),
}

enum Item {
    Letter(char),
    Range(char, char),
    Word,
    Space,
    Digit,
}

#[derive(Clone, Copy, PartialEq)]
enum Side {
    Ahead,
    Behind,
}

/// Where the whole is found, and each group.
pub type Found = Vec<Option<(usize, usize)>>;

pub struct Pattern {
    alternatives: Vec<Vec<Part>>,
    groups: usize,
}

impl Pattern {
    pub fn new(text: &str) -> Pattern {
        let letters: Vec<char> = text.chars().collect();
        let mut reader = Reader { letters, place: 0, groups: 0 };
        let alternatives = reader.alternatives();
        assert_eq!(reader.place, reader.letters.len(), "{text}");
        Pattern { alternatives, groups: reader.groups }
    }

    /// The first place from one on at which it matches.
    pub fn find(&self, line: &[char], from: usize) -> Option<Found> {
        (from..=line.len()).find_map(|start| {
            let mut found = vec![None; self.groups + 1];
            let mut end = None;
            let matched = any(&self.alternatives, line, start, &mut found, &mut |place, _| {
                end = Some(place);
                true
            });
            found[0] = end.map(|end| (start, end));
            matched.then_some(found)
        })
    }
}

struct Reader {
    letters: Vec<char>,
    place: usize,
    groups: usize,
}

impl Reader {
    fn takes(&mut self, text: &str) -> bool {
        let there = self.letters[self.place..].starts_with(&text.chars().collect::<Vec<_>>());
        self.place += if there { text.chars().count() } else { 0 };
        there
    }

    fn alternatives(&mut self) -> Vec<Vec<Part>> {
        let mut all = vec![Vec::new()];
        while self.place < self.letters.len() && self.letters[self.place] != ')' {
            if self.takes("|") {
                all.push(Vec::new());
                continue;
            }
            let part = self.part();
            let (least, most) = match self.letters.get(self.place) {
                Some('?') => (0, 1),
                Some('*') => (0, usize::MAX),
                Some('+') => (1, usize::MAX),
                _ => (1, 1),
            };
            let repeated = (least, most) != (1, 1);
            self.place += usize::from(repeated);
            let part = if repeated { Part::Repeat(Box::new(part), least, most) } else { part };
            all.last_mut().unwrap().push(part);
        }
        all
    }

    fn part(&mut self) -> Part {
        for (sign, side, holds) in [
            ("(?=", Side::Ahead, true),
            ("(?!", Side::Ahead, false),
            ("(?<=", Side::Behind, true),
            ("(?<!", Side::Behind, false),
        ] {
            if self.takes(sign) {
                return Part::Look(self.closed(), side, holds);
            }
        }
        if self.takes("(?:") {
            return Part::Group(None, self.closed());
        }
        let letter = self.letters[self.place];
        self.place += 1;
        match letter {
            '(' => {
                self.groups += 1;
                Part::Group(Some(self.groups), self.closed())
            }
            '[' => self.class(),
            '.' => Part::Any,
            '^' => Part::Start,
            '$' => Part::End,
            '\\' => match self.escaped() {
                Item::Letter(letter) => Part::Letter(letter),
                class => Part::Class(vec![class], true),
            },
            letter => Part::Letter(letter),
        }
    }

    fn closed(&mut self) -> Vec<Vec<Part>> {
        let inner = self.alternatives();
        assert!(self.takes(")"), "a group is not closed");
        inner
    }

    fn class(&mut self) -> Part {
        let (holds, mut items) = (!self.takes("^"), Vec::new());
        while !self.takes("]") {
            let letter = self.letters[self.place];
            self.place += 1;
            let ends = |reader: &Reader| reader.letters[reader.place..].starts_with(&['-', ']']);
            items.push(match letter {
                '\\' => self.escaped(),
                letter if self.letters[self.place] == '-' && !ends(self) => {
                    self.place += 2;
                    Item::Range(letter, self.letters[self.place - 1])
                }
                letter => Item::Letter(letter),
            });
        }
        Part::Class(items, holds)
    }

    fn escaped(&mut self) -> Item {
        self.place += 1;
        match self.letters[self.place - 1] {
            'w' => Item::Word,
            's' => Item::Space,
            'd' => Item::Digit,
            'n' => Item::Letter('\n'),
            letter if !letter.is_alphanumeric() => Item::Letter(letter),
            letter => panic!("\\{letter} is not known here"),
        }
    }
}

/// What is done with the rest of an expression.
type Rest<'a> = &'a mut dyn FnMut(usize, &mut Found) -> bool;

fn any(all: &[Vec<Part>], line: &[char], at: usize, found: &mut Found, rest: Rest) -> bool {
    all.iter().any(|parts| sequence(parts, line, at, found, rest))
}

fn sequence(parts: &[Part], line: &[char], at: usize, found: &mut Found, rest: Rest) -> bool {
    match parts {
        [] => rest(at, found),
        [first, more @ ..] => {
            one(first, line, at, found, &mut |at, found| sequence(more, line, at, found, rest))
        }
    }
}

fn one(part: &Part, line: &[char], at: usize, found: &mut Found, rest: Rest) -> bool {
    let next = line.get(at);
    match part {
        Part::Letter(letter) => next == Some(letter) && rest(at + 1, found),
        Part::Any => next.is_some() && rest(at + 1, found),
        Part::Class(items, holds) => {
            next.is_some_and(|letter| items.iter().any(|item| item.has(*letter)) == *holds)
                && rest(at + 1, found)
        }
        Part::Start => at == 0 && rest(at, found),
        Part::End => at == line.len() && rest(at, found),
        Part::Group(number, all) => any(all, line, at, found, &mut |end, found| {
            let before = number.map(|number| found[number].replace((at, end)));
            let well = rest(end, found);
            if let (false, Some(number)) = (well, number) {
                found[*number] = before.flatten();
            }
            well
        }),
        Part::Look(all, side, holds) => {
            let mut starts = if *side == Side::Ahead { at..=at } else { 0..=at };
            let there = starts.any(|start| {
                let ends = |end: usize| *side == Side::Ahead || end == at;
                any(all, line, start, &mut found.clone(), &mut |end, _| ends(end))
            });
            there == *holds && rest(at, found)
        }
        Part::Repeat(part, least, most) => repeated((part, *least, *most), line, at, found, rest),
    }
}

fn repeated(
    (part, least, most): (&Part, usize, usize),
    line: &[char],
    at: usize,
    found: &mut Found,
    rest: Rest,
) -> bool {
    let again = (part, least.saturating_sub(1), most.saturating_sub(1));
    let more = most > 0
        && one(part, line, at, found, &mut |end, found| {
            end > at && repeated(again, line, end, found, rest)
        });
    more || least == 0 && rest(at, found)
}

impl Item {
    fn has(&self, letter: char) -> bool {
        match self {
            Item::Letter(one) => *one == letter,
            Item::Range(from, to) => (*from..=*to).contains(&letter),
            Item::Word => letter.is_alphanumeric() || letter == '_',
            Item::Space => letter.is_whitespace(),
            Item::Digit => letter.is_numeric(),
        }
    }
}

#[test]
fn expressions() {
    let find = |pattern: &str, line: &str| {
        let line: Vec<char> = line.chars().collect();
        let found = Pattern::new(pattern).find(&line, 0)?;
        let text = |&(start, end): &(usize, usize)| line[start..end].iter().collect::<String>();
        Some(found.iter().map(|one| one.as_ref().map(text).unwrap_or_default()).collect::<Vec<_>>())
    };
    assert_eq!(find("a(b|cd?)+", "xacdbc"), Some(vec!["acdbc".into(), "c".into()]));
    assert_eq!(find("(?<![\\w-])me(?![\\w-])", "some me-too"), None);
    assert_eq!(find("(?<![\\w-])me(?![\\w-])", "some me"), Some(vec!["me".into()]));
    assert_eq!(find("^\\s*(?:x|y)[^#-]*", "  yä-#"), Some(vec!["  yä".into()]));
    assert_eq!(find("[0-9]+$", "a1 23"), Some(vec!["23".into()]));
}
