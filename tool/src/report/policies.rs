//! The policies and effects, read aloud.

use super::html::escaped;
use crate::aloud::{Aloud, Sentence};
use crate::words::Words;
use keeper::record::Record;

pub fn section(record: &Record, words: &Words) -> String {
    format!(
        "<section aria-labelledby=\"policies\">\n<h2 id=\"policies\">What may be done</h2>\n{}</section>\n",
        list(record, words),
    )
}

/// The policies one by one, and the clauses that they name.
pub fn list(record: &Record, words: &Words) -> String {
    let aloud = Aloud::of_record(record, words.names);
    let mut text = String::from("<dl class=\"policies\">\n");
    for spoken in &aloud.events {
        let name = escaped(&words.names.event(spoken.event));
        text.push_str(&format!("<div><dt>{name}</dt>\n<dd>{}", sentence(&spoken.policy)));
        if let Some(effects) = &spoken.effects {
            text.push_str(&format!("<div class=\"effects\">{}</div>", sentence(effects)));
        }
        if let Some(kept) = &spoken.kept {
            text.push_str(&format!("<div class=\"effects\">{}</div>", sentence(kept)));
        }
        text.push_str("</dd></div>\n");
    }
    text.push_str("</dl>\n");
    if let Some(stored) = &aloud.stored {
        text.push_str(&format!("<div class=\"clauses\">\n{}</div>\n", sentence(stored)));
    }
    if !aloud.clauses.is_empty() {
        text.push_str("<div class=\"clauses\">\n");
        aloud.clauses.iter().for_each(|clause| text.push_str(&sentence(clause)));
        text.push_str("</div>\n");
    }
    text
}

/// A sentence as paragraphs, each indented by its depth.
fn sentence(sentence: &Sentence) -> String {
    let line = |(depth, line): &(usize, String)| {
        let class =
            if *depth == 0 { String::new() } else { format!(" class=\"d{}\"", depth.min(&9)) };
        format!("<p{class}>{}</p>", escaped(line))
    };
    sentence.lines.iter().map(line).collect()
}
