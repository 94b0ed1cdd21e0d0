//! The strip of answers, and each moment with its graph and what was asked at it.

use super::cited::Cited;
use super::drawing::Drawing;
use super::edges;
use super::filter;
use super::html::{escaped, unbroken};
use super::legend;
use crate::both::Verdict;
use crate::replay::{Replay, Step};
use crate::stop::Stop;
use crate::why::reason::Reasons;
use crate::words::{answered, Words};

/// So many links to moments and answers are shown at once.
const MOST_LINKS: usize = 60;

/// What the links are: a class, what is in it, and what it stands for.
const KEY: [(&str, &str, &str); 4] = [
    ("at", "1", "a moment"),
    ("granted", "✓", "a granted request"),
    ("denied", "✗", "a denied one"),
    ("refused", "!", "a refused one"),
];

pub fn section(replay: &Replay, words: &Words, drawing: &Drawing) -> Result<String, Stop> {
    let graphs = replay.both.record().graphs();
    let mut reasons = Reasons::new(replay.both.record());
    let wide = if drawing.is_wide() { " wide" } else { "" };
    let mut text = format!(
        "<section aria-labelledby=\"story\">\n<h2 id=\"story\">What happened</h2>\n{}{}\
         <ol class=\"moments{wide}\" start=\"0\">\n",
        filter::controls(replay, words) + &strip(replay, words),
        legend::list(drawing, graphs.len()),
    );
    for (moment, graph) in graphs.iter().enumerate() {
        let event = graph.event.map(|edge| words.happened(edge));
        let heading = match (moment, event) {
            (0, Some(event)) => format!("as stored, after {event}"),
            (_, Some(event)) => event,
            (_, None) if replay.both.is_stored() => "as stored".to_string(),
            (_, None) => "At the start".to_string(),
        };
        let pictured = drawing.has_picture(moment);
        let brief = if pictured { "" } else { " brief" };
        text.push_str(&format!(
            "<li class=\"moment{brief}\" id=\"moment-{moment}\" {}>\n\
             <h3><span class=\"number\"><span class=\"away\">Moment </span>{moment}</span> {}</h3>\n",
            filter::moment_marks(replay.at(moment)),
            escaped(&heading)
        ));
        let class = if pictured { "scene" } else { "scene bare" };
        text.push_str(&format!("<div class=\"{class}\">\n"));
        text.push_str(&match pictured {
            true => {
                let cited = Cited::of(&mut reasons, words.names, replay.at(moment));
                figure(moment, drawing, &cited)
            }
            false => edges::changed(drawing, moment),
        });
        text.push_str(&asked(replay, moment, words, &mut reasons)?);
        text.push_str("</div>\n</li>\n");
    }
    text.push_str("</ol>\n</section>\n");
    Ok(text)
}

/// Every moment and every answer in order, each a link to where it is told. Of a long
/// story the beginning and the end are shown, and the rest on demand.
fn strip(replay: &Replay, words: &Words) -> String {
    let moment_link = |moment: usize| {
        format!(
            "<li class=\"to-moment\" {}><a class=\"at\" href=\"#moment-{moment}\" title=\"moment {moment}\">\
             {moment}</a></li>\n",
            filter::moment_marks(replay.at(moment)),
        )
    };
    // Each with the moment that it is about.
    let mut links = vec![(0, moment_link(0))];
    for step in &replay.steps {
        let said = format!("{}: {}", words.request(step.request), answered(step.verdict));
        let link = format!(
            "<li class=\"step\" {4}><a class=\"{0}\" href=\"#request-{1}\" title=\"{2}\">\
             <span aria-hidden=\"true\">{3}</span><span class=\"away\">request {1}, {0}</span></a></li>\n",
            answered(step.verdict),
            step.line,
            escaped(&said),
            sign(step.verdict),
            filter::marks(step),
        );
        links.push((step.moment, link));
        if step.made {
            links.push((step.moment + 1, moment_link(step.moment + 1)));
        }
    }
    let list = |links: &[(usize, String)]| {
        let links: String = links.iter().map(|(_, link)| link.as_str()).collect();
        format!("<ol class=\"strip\">\n{links}</ol>")
    };
    let links = match links.len() > MOST_LINKS {
        false => list(&links),
        true => {
            let (first, rest) = links.split_at(MOST_LINKS / 2);
            let (middle, last) = rest.split_at(rest.len() - MOST_LINKS / 2);
            format!(
                "{}<details class=\"folded\"><summary>Moments {}–{}</summary>{}</details>{}",
                list(first),
                middle[0].0,
                middle[middle.len() - 1].0,
                list(middle),
                list(last),
            )
        }
    };
    let item = |(class, sign, said): &(&str, &str, &str)| {
        format!("<li><span class=\"chip {class}\" aria-hidden=\"true\">{sign}</span> {said}</li>")
    };
    let key: String = KEY.iter().map(item).collect();
    format!("<nav aria-label=\"Moments and answers\">{links}</nav>\n<ul class=\"key\">{key}</ul>\n")
}

fn sign(verdict: Verdict) -> &'static str {
    match verdict {
        Verdict::Grant => "✓",
        Verdict::Deny => "✗",
        Verdict::Refused(_) => "!",
    }
}

/// A moment's picture, and its edges or what changed.
fn figure(moment: usize, drawing: &Drawing, cited: &Cited) -> String {
    let focus = if drawing.is_wide() { " tabindex=\"0\"" } else { "" };
    format!(
        "<figure{focus}>\n{}<figcaption>\n{}</figcaption>\n</figure>\n",
        drawing.picture(moment, cited),
        edges::told(drawing, moment),
    )
}

/// The requests made at a moment, with answers and reasons.
fn asked(
    replay: &Replay,
    moment: usize,
    words: &Words,
    reasons: &mut Reasons,
) -> Result<String, Stop> {
    let steps = replay.at(moment);
    let Some(first) = steps.first() else {
        return Ok(format!("<p class=\"quiet\">{}</p>\n", nothing(replay)));
    };
    let mut text = format!(
        "<div><p class=\"then\">Then asked:</p>\n<ol class=\"asked\" start=\"{}\">\n",
        first.line
    );
    for step in steps {
        let answer = answered(step.verdict);
        text.push_str(&format!(
            "<li id=\"request-{0}\" class=\"{answer}\" {3}><p class=\"request\"><span class=\"line\">{0}</span> \
             <span class=\"what\">{1}</span> <strong><span aria-hidden=\"true\">{2}</span> {answer}</strong>{4}</p>\n",
            step.line,
            unbroken(&words.request(step.request)),
            sign(step.verdict),
            filter::marks(step),
            next(step),
        ));
        text.push_str(&told(step, words, reasons)?);
        text.push_str("</li>\n");
    }
    text.push_str("</ol></div>\n");
    Ok(text)
}

/// Where to go on from a request that made a moment.
fn next(step: &Step) -> String {
    let moment = step.moment + 1;
    match step.made {
        true => format!(" <a class=\"next\" href=\"#moment-{moment}\">→ moment {moment}</a>"),
        false => String::new(),
    }
}

/// What is said at a moment at which nothing was asked.
fn nothing(replay: &Replay) -> &'static str {
    match replay.steps.is_empty() {
        true => "No requests yet. Add requests.say, or use <code>cuckooormolu play</code>.",
        false => "Nothing more was asked.",
    }
}

fn told(step: &Step, words: &Words, reasons: &mut Reasons) -> Result<String, Stop> {
    // Why a definition holds or fails is told under it, with two blanks more.
    let deep = |line: &str| match (line.len() - line.trim_start().len()) / 2 {
        0 => String::new(),
        depth => format!(" style=\"padding-left:{depth}.2rem\""),
    };
    let paragraph = |line: &String| {
        format!("<p class=\"because\"{}>{}</p>\n", deep(line), unbroken(line.trim_start()))
    };
    if let Verdict::Refused(number) = step.verdict {
        return Ok(paragraph(&words.refusal(step.request, number)));
    }
    let Some(because) = reasons.of(words, step, false)? else { return Ok(String::new()) };
    let mut text: String = because.lines.iter().map(paragraph).collect();
    if let (Some(rest), Some(all)) = (because.rest(), reasons.of(words, step, true)?) {
        let item =
            |line: &String| format!("<li{}>{}</li>\n", deep(line), unbroken(line.trim_start()));
        let items: String = all.lines.iter().map(item).collect();
        text.push_str(&format!(
            "<details><summary>{rest}</summary>\n<ul>\n{items}</ul></details>\n"
        ));
    }
    Ok(text)
}
