//! Keys from a terminal in raw mode, and the line shown on it.

use super::{Editor, Key, Pressed};
use std::io::{self, Read, Write};
use std::process::{Command, Stdio};

/// The terminal in raw mode, by `stty`; it is as it was before when this is gone.
pub struct Raw {
    before: String,
}

impl Raw {
    /// Raw mode, or nothing where there is no terminal or no `stty`.
    pub fn new() -> Option<Raw> {
        let before = stty(&["-g"])?;
        stty(&["-icanon", "-echo", "-isig", "min", "1", "time", "0"])?;
        Some(Raw { before: before.trim().to_string() })
    }
}

impl Drop for Raw {
    fn drop(&mut self) {
        stty(&[&self.before]);
    }
}

fn stty(arguments: &[&str]) -> Option<String> {
    let mut command = Command::new("stty");
    command.args(arguments).stdin(Stdio::inherit()).stderr(Stdio::null());
    let output = command.output().ok().filter(|output| output.status.success())?;
    String::from_utf8(output.stdout).ok()
}

/// Reads one line; none at the end of the input.
pub fn line(
    editor: &mut Editor,
    prompt: &str,
    input: &mut dyn Read,
    out: &mut dyn Write,
    complete: &dyn Fn(&str) -> Vec<String>,
) -> io::Result<Option<String>> {
    show(editor, prompt, out)?;
    loop {
        let before = (editor.text(), editor.cursor());
        let Some(key) = key(input)? else { return Ok(None) };
        match editor.press(key, complete) {
            Pressed::Going if before == (editor.text(), editor.cursor()) => continue,
            Pressed::Going => {}
            Pressed::Choices(words) => write!(out, "\r\n{}\r\n", words.join("  "))?,
            Pressed::Line(line) => {
                write!(out, "\r\n")?;
                out.flush()?;
                return Ok(Some(line));
            }
            Pressed::End => {
                write!(out, "\r\n")?;
                out.flush()?;
                return Ok(None);
            }
        }
        show(editor, prompt, out)?;
    }
}

/// The line after its prompt, with the cursor in its place.
fn show(editor: &Editor, prompt: &str, out: &mut dyn Write) -> io::Result<()> {
    let text = editor.text();
    let after = text.chars().count() - editor.cursor();
    write!(out, "\r{prompt}{text}\x1b[K")?;
    if after > 0 {
        write!(out, "\x1b[{after}D")?;
    }
    out.flush()
}

fn byte(input: &mut dyn Read) -> io::Result<Option<u8>> {
    let mut byte = [0];
    Ok((input.read(&mut byte)? == 1).then_some(byte[0]))
}

/// The next key; none at the end of the input.
fn key(input: &mut dyn Read) -> io::Result<Option<Key>> {
    let Some(first) = byte(input)? else { return Ok(None) };
    Ok(Some(match first {
        1 => Key::Home,
        2 => Key::Left,
        3 => Key::Interrupt,
        4 => Key::EndOfInput,
        5 => Key::End,
        6 => Key::Right,
        8 | 127 => Key::Backspace,
        9 => Key::Tab,
        10 | 13 => Key::Enter,
        11 => Key::KillAfter,
        14 => Key::Down,
        16 => Key::Up,
        21 => Key::KillBefore,
        23 => Key::KillWord,
        27 => return escaped(input).map(Some),
        0..=31 => Key::Other,
        first => letter(first, input)?,
    }))
}

/// The key of a sequence that begins with an escape.
fn escaped(input: &mut dyn Read) -> io::Result<Key> {
    if !matches!(byte(input)?, Some(b'[' | b'O')) {
        return Ok(Key::Other);
    }
    Ok(match byte(input)? {
        Some(b'A') => Key::Up,
        Some(b'B') => Key::Down,
        Some(b'C') => Key::Right,
        Some(b'D') => Key::Left,
        Some(b'H') => Key::Home,
        Some(b'F') => Key::End,
        Some(digit @ b'0'..=b'9') => {
            // Parameters end with a letter or a tilde; a sequence is short.
            let mut last = byte(input)?;
            for _ in 0..8 {
                match last {
                    Some(b'0'..=b'9' | b';') => last = byte(input)?,
                    _ => break,
                }
            }
            match (digit, last) {
                (b'1' | b'7', Some(b'~')) => Key::Home,
                (b'4' | b'8', Some(b'~')) => Key::End,
                (b'3', Some(b'~')) => Key::Delete,
                _ => Key::Other,
            }
        }
        _ => Key::Other,
    })
}

/// A letter in UTF-8, from its first byte on.
fn letter(first: u8, input: &mut dyn Read) -> io::Result<Key> {
    let length = match first {
        0..=127 => 1,
        0xc0..=0xdf => 2,
        0xe0..=0xef => 3,
        0xf0..=0xf7 => 4,
        _ => return Ok(Key::Other),
    };
    let mut bytes = vec![first];
    while bytes.len() < length {
        match byte(input)? {
            Some(byte) => bytes.push(byte),
            None => return Ok(Key::Other),
        }
    }
    let letter = std::str::from_utf8(&bytes).ok().and_then(|text| text.chars().next());
    Ok(letter.map_or(Key::Other, Key::Letter))
}

#[cfg(test)]
mod tests {
    use super::*;

    fn typed(bytes: &[u8]) -> (Vec<String>, String) {
        let (mut editor, mut out, mut input) = (Editor::default(), Vec::new(), bytes);
        let mut lines = Vec::new();
        while let Some(line) =
            line(&mut editor, "> ", &mut input, &mut out, &|_| Vec::new()).unwrap()
        {
            lines.push(line);
        }
        (lines, String::from_utf8(out).unwrap())
    }

    #[test]
    fn keys_and_sequences() {
        let (lines, shown) =
            typed("sahre\x1b[D\x1b[D\x1b[D\x7f\x1b[Ca\r\x1b[A\x01é\r\x04".as_bytes());
        assert_eq!(lines, ["share", "éshare"]);
        assert!(shown.starts_with("\r> \x1b[K\r> s\x1b[K"), "{shown:?}");
    }

    /// Whatever comes, it is read to its end.
    #[test]
    fn hostile_input() {
        let long = [b"\x1b[".as_slice(), &[b'1'; 20_000], b"~\r"].concat();
        for bytes in [&b"\x1b"[..], b"\x1b[", b"\xff\xfe\xe2\x82", b"\x1b[99;99;99~\x00\r", &long] {
            typed(bytes);
        }
        assert_eq!(typed(&[b'a'; 1_000]).0, Vec::<String>::new());
    }
}
