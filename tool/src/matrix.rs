//! Who may do an event to whom, as a table.

use crate::both::{Both, Verdict};
use crate::stop::Stop;
use crate::words::Words;

/// So many columns are separated by blanks; more stand close together.
const WIDE: usize = 26;
/// The longest header, in letters.
const HEADER: usize = 12;

const MAY: &str = "●";
const MAY_NOT: &str = "·";

/// For each initiator and target whether the event is allowed.
pub struct Matrix {
    pub event: usize,
    pub moment: usize,
    pub rows: Vec<Vec<bool>>,
    /// The members that have a row, and a column.
    pub from: Vec<usize>,
    pub to: Vec<usize>,
}

impl Matrix {
    /// Looks at every pair; makes no moment.
    pub fn now(both: &Both, event: usize) -> Result<Matrix, Stop> {
        let all: Vec<usize> = (0..both.terms().members).collect();
        Matrix::between(both, event, all.clone(), all)
    }

    /// The same for some members only.
    pub fn between(
        both: &Both,
        event: usize,
        from: Vec<usize>,
        to: Vec<usize>,
    ) -> Result<Matrix, Stop> {
        let moment = both.record().graphs().len() - 1;
        Matrix::looked(event, moment, from, to, |asks, asked| both.look(event, asks, asked))
    }

    /// The same by any looks at the event.
    pub fn looked(
        event: usize,
        moment: usize,
        from: Vec<usize>,
        to: Vec<usize>,
        look: impl Fn(usize, usize) -> Result<Verdict, Stop>,
    ) -> Result<Matrix, Stop> {
        let may = |asks, asked| Ok(look(asks, asked)? == Verdict::Grant);
        let row = |asks: &usize| to.iter().map(|asked| may(*asks, *asked)).collect();
        let rows = from.iter().map(row).collect::<Result<_, Stop>>()?;
        Ok(Matrix { event, moment, rows, from, to })
    }

    /// How many pairs are allowed.
    pub fn count(&self) -> usize {
        self.rows.iter().flatten().filter(|&&may| may).count()
    }

    /// The table for a terminal, with a line that says what it is.
    pub fn table(&self, words: &Words) -> String {
        let pairs = self.from.len() * self.to.len();
        format!(
            "{} at moment {}: {} of {pairs} pairs may ({MAY}); rows: who; columns: whom or what\n\n{}",
            words.names.event(self.event),
            self.moment,
            self.count(),
            self.cells(words),
        )
    }

    /// The rows and columns alone: targets along the top, read downwards. Where
    /// members have kinds, the kinds stand apart.
    pub fn cells(&self, words: &Words) -> String {
        let gap = if self.to.len() <= WIDE { " " } else { "" };
        let tops: Vec<Vec<char>> = self.to.iter().map(|n| header(&words.member(*n))).collect();
        let sides: Vec<Vec<char>> = self.from.iter().map(|n| header(&words.member(*n))).collect();
        let wide = sides.iter().map(Vec::len).max().unwrap_or(0);
        let longest = tops.iter().map(Vec::len).max().unwrap_or(0);
        let columns = |cells: Vec<String>| {
            let mut line = String::new();
            for (index, cell) in cells.iter().enumerate() {
                let apart =
                    index > 0 && kind(words, self.to[index - 1]) != kind(words, self.to[index]);
                line.push_str(if index == 0 { "" } else { gap });
                line.push_str(if apart { " " } else { "" });
                line.push_str(cell);
            }
            line
        };
        let mut text = String::new();
        for line in 0..longest {
            let letter = |name: &Vec<char>| {
                let top = longest - name.len();
                line.checked_sub(top).map_or(' ', |index| name[index]).to_string()
            };
            let row = format!("{:wide$}  {}", "", columns(tops.iter().map(letter).collect()));
            text.push_str(row.trim_end());
            text.push('\n');
        }
        for (index, (name, row)) in sides.iter().zip(&self.rows).enumerate() {
            if index > 0 && kind(words, self.from[index - 1]) != kind(words, self.from[index]) {
                text.push('\n');
            }
            let name: String = name.iter().collect();
            let cell = |may: &bool| if *may { MAY } else { MAY_NOT }.to_string();
            let cells = columns(row.iter().map(cell).collect());
            text.push_str(&format!("{name:>wide$}  {cells}\n"));
        }
        text
    }
}

/// The kind of a member, if it has one.
pub fn kind(words: &Words, member: usize) -> Option<usize> {
    words.names.kinds().iter().position(|(_, members)| members.contains(&member))
}

/// A name cut to the header's length.
fn header(name: &str) -> Vec<char> {
    let mut letters: Vec<char> = name.chars().collect();
    if letters.len() > HEADER {
        letters.truncate(HEADER - 1);
        letters.push('…');
    }
    letters
}
