//! Text made safe for a page.

/// The text with the letters that HTML reads as its own written out.
pub fn escaped(text: &str) -> String {
    let mut safe = String::with_capacity(text.len());
    for letter in text.chars() {
        match letter {
            '&' => safe.push_str("&amp;"),
            '<' => safe.push_str("&lt;"),
            '>' => safe.push_str("&gt;"),
            '"' => safe.push_str("&quot;"),
            '\'' => safe.push_str("&#39;"),
            letter if letter < ' ' && letter != '\n' => safe.push('\u{fffd}'),
            letter => safe.push(letter),
        }
    }
    safe
}

/// The same, with lines broken at no arrow.
pub fn unbroken(text: &str) -> String {
    escaped(text).replace(" → ", "\u{a0}→\u{a0}")
}

/// `1 member`, `2 members`, `no members`.
pub fn counted(count: usize, word: &str) -> String {
    match count {
        0 => format!("no {word}s"),
        1 => format!("1 {word}"),
        _ => format!("{count} {word}s"),
    }
}

#[cfg(test)]
mod tests {
    use super::*;

    #[test]
    fn made_safe() {
        assert_eq!(escaped("a<b & \"c\""), "a&lt;b &amp; &quot;c&quot;");
        assert_eq!(counted(0, "edge"), "no edges");
        assert_eq!(counted(1, "edge"), "1 edge");
    }
}
