//! Who may do what to whom, as tables.

use super::html::{counted, escaped};
use crate::matrix::{kind, Matrix};
use crate::replay::Replay;
use crate::stop::Stop;
use crate::words::Words;

/// The longest name in a table, in letters.
const LONGEST: usize = 14;

/// From so many members on, cells are small.
const MANY: usize = 20;

/// A table of more members than these has no rows and columns that are empty.
const WHOLE: usize = 12;

/// So few pairs of such a table are told in words, too.
const FEW: usize = 24;

/// The tables in which some may and some may not are open, and come first.
pub fn section(replay: &Replay, words: &Words) -> Result<String, Stop> {
    let (mut telling, mut plain) = (String::new(), String::new());
    for event in 0..words.terms.events {
        let matrix = Matrix::now(&replay.both, event)?;
        let is_telling = ![0, pairs(&matrix)].contains(&matrix.count());
        let (text, open) = if is_telling { (&mut telling, " open") } else { (&mut plain, "") };
        text.push_str(&format!(
            "<details class=\"who\"{open}><summary><b>{}</b> <span>{}</span></summary>\n{}{}</details>\n",
            escaped(&words.names.event(event)),
            in_short(&matrix),
            listed(&matrix, words),
            table(&matrix, words),
        ));
    }
    Ok(format!(
        "<section aria-labelledby=\"who\">\n<h2 id=\"who\">Who may do what at the end</h2>\n\
         {telling}{plain}</section>\n"
    ))
}

fn pairs(matrix: &Matrix) -> usize {
    matrix.rows.len() * matrix.rows.len()
}

/// How many pairs are allowed.
fn in_short(matrix: &Matrix) -> String {
    let pairs = pairs(matrix);
    match matrix.count() {
        0 => "nobody may".to_string(),
        all if all == pairs => "anyone, with anyone".to_string(),
        some => format!("{some} of {pairs} pairs may"),
    }
}

/// The pairs of a large table in words, where they are few: `julia: glass-pad, soft-keys`.
fn listed(matrix: &Matrix, words: &Words) -> String {
    if matrix.rows.len() <= WHOLE || matrix.count() == 0 || matrix.count() > FEW {
        return String::new();
    }
    let item = |(member, row): (usize, &Vec<bool>)| {
        let others = (0..row.len()).filter(|&other| row[other]).map(|other| words.member(other));
        let others: Vec<String> = others.collect();
        let whole = format!(
            "<li><b>{}</b>: {}</li>\n",
            escaped(&words.member(member)),
            escaped(&others.join(", "))
        );
        if others.is_empty() {
            String::new()
        } else {
            whole
        }
    };
    let items: String = matrix.rows.iter().enumerate().map(item).collect();
    format!("<ul class=\"pairs\">\n{items}</ul>\n")
}

/// The table of an event: a row for each member who asks, a column for each who is
/// asked. Long names are cut; the whole name is told where the mouse rests.
pub fn table(matrix: &Matrix, words: &Words) -> String {
    let members = matrix.rows.len();
    let shown: Vec<String> = (0..members).map(|n| shortened(&words.member(n))).collect();
    let may = |from: usize, to: usize| matrix.rows[from][to];
    let is_whole = members <= WHOLE;
    let rows: Vec<usize> =
        (0..members).filter(|&from| is_whole || (0..members).any(|to| may(from, to))).collect();
    let columns: Vec<usize> =
        (0..members).filter(|&to| is_whole || (0..members).any(|from| may(from, to))).collect();
    let size = if columns.len() > MANY { " small" } else { "" };
    let letters = columns.iter().map(|&one| shown[one].chars().count()).max().unwrap_or(0);
    let event = escaped(&words.names.event(matrix.event));
    let count = match matrix.count() {
        0 => "Nobody".to_string(),
        some => counted(some, "pair"),
    };
    let left_out = match rows.len() < members || columns.len() < members {
        true => "<br/>Rows and columns without any are left out.",
        false => "",
    };
    let caption = format!("{count} may <b>{event}</b> at moment {}.", matrix.moment);
    if rows.is_empty() {
        return format!("<p class=\"quiet\">{caption}</p>\n");
    }
    let mut text = format!(
        "<div class=\"cells\" tabindex=\"0\" role=\"region\" aria-label=\"Who may {event}\">\
         <table class=\"may{size}\" style=\"--letters:{letters}\"><caption>{caption}\
         <br/>Row: who asks. Column: the target.{left_out}</caption>\n<thead><tr><td></td>",
    );
    let name = |member: usize| {
        let whole = words.member(member);
        let title = match whole.chars().count() > LONGEST {
            true => format!(" title=\"{}\"", escaped(&whole)),
            false => String::new(),
        };
        (escaped(&shown[member]), format!("{title} data-member=\"{member}\""))
    };
    // Where members have kinds, these stand apart.
    let apart = |list: &[usize], place: usize| {
        place > 0 && kind(words, list[place - 1]) != kind(words, list[place])
    };
    for &member in &columns {
        let (shown, marks) = name(member);
        text.push_str(&format!("<th scope=\"col\"{marks}><div><span>{shown}</span></div></th>"));
    }
    text.push_str("</tr></thead>\n<tbody>\n");
    for (row, &from) in rows.iter().enumerate() {
        let (shown, marks) = name(from);
        let below = if apart(&rows, row) { " class=\"below\"" } else { "" };
        text.push_str(&format!("<tr{below}><th scope=\"row\"{marks}>{shown}</th>"));
        for (column, &to) in columns.iter().enumerate() {
            text.push_str(match (may(from, to), apart(&columns, column)) {
                (true, false) => "<td class=\"y\">✓</td>",
                (true, true) => "<td class=\"y after\">✓</td>",
                (false, false) => "<td></td>",
                (false, true) => "<td class=\"after\"></td>",
            });
        }
        text.push_str("</tr>\n");
    }
    text.push_str("</tbody></table></div>\n");
    text
}

/// A name that is not too long for a picture or a table.
pub fn shortened(name: &str) -> String {
    if name.chars().count() <= LONGEST {
        return name.to_string();
    }
    name.chars().take(LONGEST - 1).chain(['…']).collect()
}
