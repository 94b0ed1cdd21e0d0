//! Reads the file of cases that the program and the keeper share.
//!
//! A line is a case: its kind, its label and its arguments, separated by tabs.
//! In a text a space stands for a tab, a slash for a line feed, and five other
//! bytes for some that are hard to show. A line `head` gives the text that the
//! cases after it begin with. Empty lines and those after `#` are passed over.

/// One case.
#[derive(Clone, Debug, PartialEq, Eq)]
pub struct Case {
    pub kind: String,
    pub label: String,
    /// The text of the last `head` line.
    pub head: Vec<u8>,
    fields: Vec<Vec<u8>>,
}

impl Case {
    pub fn count(&self) -> usize {
        self.fields.len()
    }

    /// An argument as the text that it stands for.
    pub fn text(&self, index: usize) -> Option<Vec<u8>> {
        self.fields.get(index).map(|field| text(field))
    }

    /// An argument as a number.
    pub fn number(&self, index: usize) -> Option<u64> {
        std::str::from_utf8(self.fields.get(index)?).ok()?.parse().ok()
    }

    /// The same, for a count of words or bytes, or a place.
    pub fn size(&self, index: usize) -> Option<usize> {
        usize::try_from(self.number(index)?).ok()
    }
}

/// All cases of a file, in order.
pub fn cases(file: &[u8]) -> Vec<Case> {
    let mut head = Vec::new();
    let mut cases = Vec::new();
    for line in file.split(|&byte| byte == b'\n') {
        let mut fields = line.split(|&byte| byte == b'\t').map(<[u8]>::to_vec);
        let mut next = || fields.next().unwrap_or_default();
        let (kind, label) = (next(), next());
        match kind.first() {
            None | Some(b'#') => {}
            Some(_) if kind == b"head" => head = text(&label),
            Some(_) => cases.push(Case {
                kind: String::from_utf8_lossy(&kind).into_owned(),
                label: String::from_utf8_lossy(&label).into_owned(),
                head: head.clone(),
                fields: fields.collect(),
            }),
        }
    }
    cases
}

/// The bytes that a text stands for.
fn text(field: &[u8]) -> Vec<u8> {
    let meant = |byte: &u8| match byte {
        b' ' => b'\t',
        b'/' => b'\n',
        b'_' => b' ',
        b'~' => b'\r',
        b'^' => 0,
        b'|' => b'/',
        b'%' => 255,
        byte => *byte,
    };
    field.iter().map(meant).collect()
}
