//! What the page is told: mistakes, or warnings, the terms read aloud, the requests'
//! answers, the present graph, why, and who may.

use super::asked::{Asked, Named};
use super::files::{numbers, Files};
use crate::check::{check, effort, Checked};
use crate::folder::{Folder, Request};
use crate::json::Json;
use crate::matrix::Matrix;
use crate::names::{Kind, Names};
use crate::replay::{Replay, Step};
use crate::report::cited::Cited;
use crate::report::drawing::{drawn, Drawing};
use crate::report::{legend, policies, tables};
use crate::source::ast::Span;
use crate::source::mistake::Mistake;
use crate::stop::Stop;
use crate::why::reason::Reasons;
use crate::words::Words;

pub fn told(files: &Files, asked: &Asked) -> Result<Json, Stop> {
    let folder = match files.with(&asked.source) {
        Ok(folder) => folder,
        Err(mistakes) => {
            let mistakes = mistakes.iter().map(|one| mistaken(one, &asked.source));
            return Ok(Json::Object(vec![("mistakes", Json::List(mistakes.collect()))]));
        }
    };
    if let Some(long) = lengthy(&folder)? {
        let mistakes = Json::List(vec![mistaken(&long, &asked.source)]);
        return Ok(Json::Object(vec![("mistakes", mistakes)]));
    }
    let mut replay = Replay::before(&folder)?;
    let (made, taken_back) = asked.requests.split_at(asked.at);
    let mut steps = Vec::new();
    for named in made {
        steps.push(step(&mut replay, named, &folder.names)?);
    }
    let words = Words::new(replay.both.terms(), &folder.names);
    let mut fields = terms(&words);
    fields.push(("effort", effort::told(replay.both.effort()).into()));
    fields.push(("warnings", warnings(&folder, &asked.source)?));
    fields.push(("aloud", policies::list(replay.both.record(), &words).into()));
    let cited = cited(&replay, &words, &steps);
    fields.extend(scene(&replay, &words, &cited));
    fields.push(("why", why(&replay, &words, &steps)?));
    fields.push(("looks", looks(&replay, &words, asked)?));
    fields.push(("table", table(&replay, &words, asked)?));
    let mut after = replay;
    for named in taken_back {
        steps.push(step(&mut after, named, &folder.names)?);
    }
    fields.push(("steps", Json::List(steps.into_iter().map(|made| made.json).collect())));
    Ok(Json::Object(fields))
}

/// What takes so long that the page would stand still, told as a mistake.
fn lengthy(folder: &Folder) -> Result<Option<Mistake>, Stop> {
    if effort::lengthy(&folder.terms).is_none() {
        return Ok(None);
    }
    let Checked::Accepted(_, warnings) = check(folder)? else { return Ok(None) };
    let long = warnings.into_iter().find(|warning| warning.kind == effort::KIND);
    Ok(long.map(|long| {
        let place = folder.place(long.about);
        let span = place.map_or(Span { start: 0, end: 0 }, |(_, span)| span);
        let message = format!("{}; that is too long for this page", long.what);
        Mistake::new(span, message).advise(long.right)
    }))
}

/// What `check` warns of.
fn warnings(folder: &Folder, text: &str) -> Result<Json, Stop> {
    let Checked::Accepted(_, warnings) = check(folder)? else { return Ok(Json::List(Vec::new())) };
    let compiled = folder.source.iter().flat_map(|source| &source.compiled.warnings);
    let compiled = compiled.map(|warning| mistaken(warning, text));
    let warned = warnings.iter().map(|warning| {
        let place = folder.place(warning.about);
        let span = place.map_or(Span { start: 0, end: 0 }, |(_, span)| span);
        let told = Mistake::new(span, warning.what.as_str()).advise(warning.right.as_str());
        at(&told, place.is_some(), text)
    });
    Ok(Json::List(compiled.chain(warned).collect()))
}

/// Where a mistake is, counted as a browser counts letters, and what it is.
fn mistaken(mistake: &Mistake, text: &str) -> Json {
    at(mistake, true, text)
}

/// The same; line 0 is no single one.
fn at(mistake: &Mistake, placed: bool, text: &str) -> Json {
    let units = |place: usize| {
        let before = text.get(..place.min(text.len())).unwrap_or(text);
        before.encode_utf16().count()
    };
    let (line, column) = mistake.place(text);
    Json::Object(vec![
        ("start", units(mistake.span.start).into()),
        ("end", units(mistake.span.end).into()),
        ("line", if placed { line } else { 0 }.into()),
        ("column", column.into()),
        ("message", mistake.message.as_str().into()),
        ("advice", mistake.advice.clone().into()),
    ])
}

/// What there is.
fn terms(words: &Words) -> Vec<(&'static str, Json)> {
    let terms = words.terms;
    let all = |kind: Kind, count: usize| -> Json {
        (0..count).map(|number| words.names.name(kind, number)).collect::<Vec<_>>().into()
    };
    vec![
        ("mistakes", Json::List(Vec::new())),
        ("members", all(Kind::Member, terms.members)),
        ("relations", all(Kind::Relation, terms.relations)),
        ("events", all(Kind::Event, terms.events)),
        ("entries", terms.entries.len().into()),
        ("past", terms.past().len().into()),
    ]
}

/// A request and what the page is told of it.
struct Made {
    step: Option<Step>,
    json: Json,
}

/// Makes a request, if its names are there.
fn step(replay: &mut Replay, named: &Named, names: &Names) -> Result<Made, Stop> {
    let mut fields = vec![
        ("event", named.event.as_str().into()),
        ("from", named.from.as_str().into()),
        ("to", named.to.as_str().into()),
    ];
    let step = match numbers(named, names) {
        Ok((event, from, to)) => {
            let step = replay.make(Request::Ask { event, from, to })?;
            fields.push(("answer", step.verdict.to_string().into()));
            fields.push(("made", step.made.into()));
            Some(step)
        }
        Err(why) => {
            fields.push(("answer", "refuse".into()));
            fields.push(("made", false.into()));
            fields.push(("because", why.into()));
            None
        }
    };
    fields.push(("moment", replay.moment().into()));
    Ok(Made { step, json: Json::Object(fields) })
}

/// What the last request adds to the picture: what its reason tells of, and the request
/// itself if it was denied and made no moment.
fn cited(replay: &Replay, words: &Words, steps: &[Made]) -> Cited {
    let last = steps.last().and_then(|made| made.step);
    let mut cited = match last {
        Some(step) => Cited::of(&mut Reasons::new(replay.both.record()), words.names, &[step]),
        None => Cited::default(),
    };
    if last.is_some_and(|step| step.made) {
        cited.denied.clear();
    }
    cited
}

/// The present moment, its picture, and the colours in it.
fn scene(replay: &Replay, words: &Words, cited: &Cited) -> Vec<(&'static str, Json)> {
    let moment = replay.moment();
    let graphs = drawn(words, replay.both.record().graphs());
    let drawing = Drawing::new(words, &graphs);
    let stored = replay.both.is_stored();
    let begun = if stored { "as stored" } else { "at the start" };
    let title = match (moment, graphs[0].event) {
        (0, None) => format!("Moment 0: {begun}"),
        (0, Some(event)) if stored => format!("Moment 0: {begun}, after {}", words.happened(event)),
        _ => drawing.title(moment),
    };
    vec![
        ("moment", moment.into()),
        ("title", title.into()),
        ("begun", begun.into()),
        ("picture", drawing.alone(moment, cited).into()),
        ("legend", legend::items(&drawing).into()),
    ]
}

/// Why the last request was answered as it was.
fn why(replay: &Replay, words: &Words, steps: &[Made]) -> Result<Json, Stop> {
    let Some(step) = steps.last().and_then(|made| made.step) else { return Ok(Json::Null) };
    because(replay, words, &step)
}

fn because(replay: &Replay, words: &Words, step: &Step) -> Result<Json, Stop> {
    let told = Reasons::new(replay.both.record()).of(words, step, true)?;
    Ok(told.map(|because| because.lines).into())
}

/// What each event would be answered for the chosen pair, and why.
fn looks(replay: &Replay, words: &Words, asked: &Asked) -> Result<Json, Stop> {
    let member = |name: &str| words.names.find(Kind::Member, name);
    let pair = asked.pair.as_ref().and_then(|(from, to)| Some((member(from)?, member(to)?)));
    let Some((from, to)) = pair else { return Ok(Json::Null) };
    let look = |event: usize| {
        let verdict = replay.both.look(event, from, to)?;
        let (request, moment) = (Request::Ask { event, from, to }, replay.moment());
        let step = Step { line: 0, bank: None, request, verdict, moment, made: false };
        Ok(Json::Object(vec![
            ("event", words.names.event(event).into()),
            ("answer", verdict.to_string().into()),
            ("because", because(replay, words, &step)?),
        ]))
    };
    (0..words.terms.events).map(look).collect::<Result<Vec<_>, Stop>>().map(Json::List)
}

/// Who may do the chosen event to whom, as a table.
fn table(replay: &Replay, words: &Words, asked: &Asked) -> Result<Json, Stop> {
    let event = asked.who.as_ref().and_then(|name| words.names.find(Kind::Event, name));
    let table = |event| Ok(tables::table(&Matrix::now(&replay.both, event)?, words));
    event.map(table).transpose().map(Json::from)
}
