//! A line edited at a terminal: keys, history, completion. What a key does is
//! worked out here; `terminal` reads keys and shows the line.

pub mod terminal;

/// A key, or a combination.
#[derive(Clone, Copy, Debug, PartialEq, Eq)]
pub enum Key {
    Letter(char),
    Left,
    Right,
    Home,
    End,
    Up,
    Down,
    Backspace,
    Delete,
    /// Deletes what is before the cursor, after it, or the word before it.
    KillBefore,
    KillAfter,
    KillWord,
    Tab,
    Enter,
    /// Gives the line up.
    Interrupt,
    /// Ends the input where the line is empty, and deletes a letter elsewhere.
    EndOfInput,
    Other,
}

/// What a key comes to.
#[derive(Clone, Debug, PartialEq, Eq)]
pub enum Pressed {
    /// The line goes on.
    Going,
    /// Words that would do in the place of the one before the cursor.
    Choices(Vec<String>),
    Line(String),
    End,
}

/// More letters than this are not taken.
const LONGEST: usize = 1_000;

/// The line, and those before it.
#[derive(Default)]
pub struct Editor {
    letters: Vec<char>,
    cursor: usize,
    history: Vec<String>,
    /// How far back in the history the line is, and what it was before that.
    back: usize,
    kept: String,
}

impl Editor {
    pub fn text(&self) -> String {
        self.letters.iter().collect()
    }

    /// How many letters stand before the cursor.
    pub fn cursor(&self) -> usize {
        self.cursor
    }

    /// Does what a key says. `complete` gives the words that may stand where the
    /// text before the cursor ends.
    pub fn press(&mut self, key: Key, complete: &dyn Fn(&str) -> Vec<String>) -> Pressed {
        match key {
            Key::Letter(letter) if self.letters.len() < LONGEST => {
                self.letters.insert(self.cursor, letter);
                self.cursor += 1;
            }
            Key::Left => self.cursor = self.cursor.saturating_sub(1),
            Key::Right => self.cursor = (self.cursor + 1).min(self.letters.len()),
            Key::Home => self.cursor = 0,
            Key::End => self.cursor = self.letters.len(),
            Key::Up => self.go_back(self.back + 1),
            Key::Down => self.go_back(self.back.saturating_sub(1)),
            Key::Backspace if self.cursor > 0 => {
                self.cursor -= 1;
                self.letters.remove(self.cursor);
            }
            Key::EndOfInput if self.letters.is_empty() => return Pressed::End,
            Key::Delete | Key::EndOfInput if self.cursor < self.letters.len() => {
                self.letters.remove(self.cursor);
            }
            Key::KillBefore => self.kill(0),
            Key::KillAfter => self.letters.truncate(self.cursor),
            Key::KillWord => self.kill(self.word_start()),
            Key::Tab => return self.complete(complete),
            Key::Interrupt => self.set(""),
            Key::Enter => return self.enter(),
            Key::Letter(_) | Key::Backspace | Key::Delete | Key::EndOfInput | Key::Other => {}
        }
        Pressed::Going
    }

    fn set(&mut self, text: &str) {
        self.letters = text.chars().collect();
        self.cursor = self.letters.len();
    }

    fn kill(&mut self, start: usize) {
        self.letters.drain(start..self.cursor);
        self.cursor = start;
    }

    /// Where the word before the cursor begins.
    fn word_start(&self) -> usize {
        let before = &self.letters[..self.cursor];
        let end = before.iter().rposition(|letter| *letter != ' ').map_or(0, |place| place + 1);
        before[..end].iter().rposition(|letter| *letter == ' ').map_or(0, |place| place + 1)
    }

    fn go_back(&mut self, back: usize) {
        if back > self.history.len() {
            return;
        }
        if self.back == 0 {
            self.kept = self.text();
        }
        self.back = back;
        let text = match back {
            0 => self.kept.clone(),
            back => self.history[self.history.len() - back].clone(),
        };
        self.set(&text);
    }

    fn enter(&mut self) -> Pressed {
        let line = self.text();
        if !line.trim().is_empty() && self.history.last() != Some(&line) {
            self.history.push(line.clone());
        }
        self.back = 0;
        self.set("");
        Pressed::Line(line)
    }

    /// Puts in what all words have in common that would do here; where that is
    /// nothing, they are chosen from.
    fn complete(&mut self, complete: &dyn Fn(&str) -> Vec<String>) -> Pressed {
        let before: String = self.letters[..self.cursor].iter().collect();
        let begun = before.rsplit(' ').next().unwrap_or("");
        let mut words = complete(&before);
        words.retain(|word| word.starts_with(begun));
        let Some(first) = words.first() else { return Pressed::Going };
        let common = words.iter().fold(first.clone(), |common, word| {
            let same = common.chars().zip(word.chars()).take_while(|(a, b)| a == b).count();
            common.chars().take(same).collect()
        });
        let end = if words.len() == 1 { " " } else { "" };
        let more = format!("{}{end}", &common[begun.len()..]);
        if more.is_empty() {
            return Pressed::Choices(words);
        }
        for letter in more.chars() {
            self.press(Key::Letter(letter), &|_| Vec::new());
        }
        Pressed::Going
    }
}

#[cfg(test)]
mod tests {
    use super::*;

    fn words(before: &str) -> Vec<String> {
        let known: &[&str] = match before.contains(' ') {
            false => &["share", "load", "look"],
            true => &["dora", "pete"],
        };
        known.iter().map(|word| word.to_string()).collect()
    }

    fn typed(editor: &mut Editor, text: &str) {
        text.chars().for_each(|letter| drop(editor.press(Key::Letter(letter), &words)));
    }

    #[test]
    fn letters_and_the_cursor() {
        let mut editor = Editor::default();
        typed(&mut editor, "lod");
        editor.press(Key::Left, &words);
        typed(&mut editor, "a");
        assert_eq!((editor.text().as_str(), editor.cursor()), ("load", 3));
        editor.press(Key::Home, &words);
        editor.press(Key::Delete, &words);
        editor.press(Key::End, &words);
        editor.press(Key::Backspace, &words);
        assert_eq!(editor.text(), "oa");
        typed(&mut editor, "k dora  ");
        editor.press(Key::KillWord, &words);
        assert_eq!(editor.text(), "oak ");
        editor.press(Key::KillBefore, &words);
        assert_eq!(editor.press(Key::EndOfInput, &words), Pressed::End);
    }

    #[test]
    fn lines_come_back() {
        let mut editor = Editor::default();
        for line in ["one", "two"] {
            typed(&mut editor, line);
            assert_eq!(editor.press(Key::Enter, &words), Pressed::Line(line.to_string()));
        }
        typed(&mut editor, "thr");
        for wanted in ["two", "one", "one"] {
            editor.press(Key::Up, &words);
            assert_eq!(editor.text(), wanted);
        }
        editor.press(Key::Down, &words);
        editor.press(Key::Down, &words);
        assert_eq!(editor.text(), "thr");
        editor.press(Key::Interrupt, &words);
        assert_eq!(editor.text(), "");
    }

    #[test]
    fn words_are_completed() {
        let mut editor = Editor::default();
        typed(&mut editor, "lo");
        let choices = Pressed::Choices(vec!["load".into(), "look".into()]);
        assert_eq!(editor.press(Key::Tab, &words), choices);
        typed(&mut editor, "a");
        editor.press(Key::Tab, &words);
        typed(&mut editor, "p");
        editor.press(Key::Tab, &words);
        assert_eq!(editor.text(), "load pete ");
        typed(&mut editor, "x");
        assert_eq!(editor.press(Key::Tab, &words), Pressed::Going);
        assert_eq!(editor.text(), "load pete x");
    }
}
