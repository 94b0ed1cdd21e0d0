//! Sentences quoted in a document: a block fenced as `aloud`.

const FENCE: &str = "```";
const OPENING: &str = "```aloud";

/// What stands in a document's block, from the byte after its opening fence to
/// the byte before its closing one.
pub fn block(document: &str) -> Option<std::ops::Range<usize>> {
    let mut place = 0;
    let mut start = None;
    for line in document.split_inclusive('\n') {
        match start {
            None if line.trim_end() == OPENING => start = Some(place + line.len()),
            Some(start) if line.trim_end() == FENCE => return Some(start..place),
            _ => {}
        }
        place += line.len();
    }
    None
}

/// The first line of a document's block that isn't as it should be, from 1,
/// with what stands there and what should; none if all are.
pub fn difference(quoted: &str, spoken: &str) -> Option<(usize, String, String)> {
    let (mut quoted, mut spoken) = (quoted.lines(), spoken.lines());
    let mut line = 0;
    loop {
        line += 1;
        match (quoted.next(), spoken.next()) {
            (None, None) => return None,
            (one, other) if one == other => {}
            (one, other) => {
                let shown = |line: Option<&str>| line.unwrap_or("(nothing)").to_string();
                return Some((line, shown(one), shown(other)));
            }
        }
    }
}

#[cfg(test)]
mod tests {
    use super::*;

    const DOCUMENT: &str = "# a\n\n```aloud\nYou may.\n```\nmore\n";

    #[test]
    fn found() {
        assert_eq!(&DOCUMENT[block(DOCUMENT).unwrap()], "You may.\n");
        assert_eq!(block("# a\n```\nYou may.\n```\n"), None);
        assert_eq!(block("```aloud\nYou may.\n"), None);
    }

    #[test]
    fn compared() {
        assert_eq!(difference("a\nb\n", "a\nb\n"), None);
        assert_eq!(difference("a\nb\n", "a\n"), Some((2, "b".into(), "(nothing)".into())));
    }
}
