//! A folder's story as one page of HTML that needs nothing else.
//!
//! * `drawing`: graphs as SVG; `circle`: on a circle; `grid`: as a matrix, if members are many
//! * `layers`: which moments have a picture
//! * `layout`: places on the circle; `label`: the event's name on its line
//! * `events`: the lines of events; `cited`: the past events that reasons tell of
//! * `heads`: the ends of lines; `glyphs`: the marks in a matrix; `legend`: what stands for what
//! * `moments`: the strip, and each moment with what was asked at it; `filter`: which of it
//! * `edges`: the relation edges in words
//! * `policies`: the policies read aloud; `tables`: who may do what at the end
//! * `palette`, `colours.css`, `style.css`, `pictures.css`, `tables.css`: what is seen
//! * `html`: text made safe for a page

mod circle;
pub mod cited;
pub mod drawing;
mod edges;
mod events;
mod filter;
mod glyphs;
mod grid;
mod heads;
pub mod html;
mod label;
mod layers;
mod layout;
pub mod legend;
mod moments;
pub mod palette;
pub mod policies;
pub mod tables;

use crate::both::Verdict;
use crate::check::effort;
use crate::names::Names;
use crate::replay::Replay;
use crate::stop::Stop;
use crate::words::Words;
use drawing::Drawing;
use html::{counted, escaped};

/// What the page looks like: colours, the page, pictures, tables.
const STYLE: [&str; 4] = [COLOURS, include_str!("report/style.css"), PICTURES, TABLES];

/// The parts of the style that other pages have, too.
pub const COLOURS: &str = include_str!("report/colours.css");
pub const PICTURES: &str = include_str!("report/pictures.css");
pub const TABLES: &str = include_str!("report/tables.css");

/// The whole page.
pub fn page(title: &str, replay: &Replay, names: &Names) -> Result<String, Stop> {
    let words = Words::new(replay.both.terms(), names);
    let graphs = drawing::drawn(&words, replay.both.record().graphs());
    let drawing = Drawing::new(&words, &graphs);
    let title = escaped(title);
    Ok(format!(
        "<!DOCTYPE html>\n<html lang=\"en\">\n<head>\n<meta charset=\"utf-8\">\n\
         <meta name=\"viewport\" content=\"width=device-width, initial-scale=1\">\n\
         <meta name=\"color-scheme\" content=\"light dark\">\n<title>{title}</title>\n\
         <style>\n{}{}{}</style>\n</head>\n<body>\n\
         <a class=\"skip\" href=\"#story\">Skip to what happened</a>\n{}\
         <header>\n<h1>{title}</h1>\n{}</header>\n<main>\n{}{}{}\
         <p class=\"quiet\">A request works out {}.</p>\n</main>\n</body>\n</html>\n",
        STYLE.concat(),
        palette::style(words.terms.relations),
        filter::style(replay, &words),
        drawing.definitions(),
        summary(replay, names),
        policies::section(replay.both.record(), &words),
        moments::section(replay, &words, &drawing)?,
        tables::section(replay, &words)?,
        effort::told(replay.both.effort()),
    ))
}

/// How many there are of everything.
fn summary(replay: &Replay, names: &Names) -> String {
    let terms = replay.both.terms();
    let (kinds, hidden) = (names.kinds().len(), names.kind_relations(terms).len());
    let count = |wanted: fn(Verdict) -> bool| {
        replay.steps.iter().filter(|step| wanted(step.verdict)).count()
    };
    let granted = count(|verdict| verdict == Verdict::Grant);
    let denied = count(|verdict| verdict == Verdict::Deny);
    let refused = replay.steps.len() - granted - denied;
    let mut answers = vec![format!("{granted} granted"), format!("{denied} denied")];
    if refused > 0 {
        answers.push(format!("{refused} refused"));
    }
    format!(
        "<p class=\"summary\">{}{}, {}, {}. {}: {}.</p>\n",
        counted(terms.members, "member"),
        if kinds == 0 { String::new() } else { format!(" of {}", counted(kinds, "kind")) },
        counted(terms.relations - hidden, "relation"),
        counted(terms.events, "event"),
        counted(replay.steps.len(), "request"),
        answers.join(", "),
    )
}
