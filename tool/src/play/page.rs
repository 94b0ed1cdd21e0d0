//! The page: one text that loads nothing from anywhere else.

use super::files::Files;
use crate::http::{self, Response};
use crate::json::Json;
use crate::play::asked::{Kept, Named};
use crate::report::html::escaped;
use crate::report::{palette, COLOURS, PICTURES, TABLES};
use keeper::terms::MOST_RELATIONS;

const PAGE: &str = include_str!("page/page.html");
const STYLE: &str = include_str!("page/page.css");
const SCRIPTS: [&str; 4] = [
    include_str!("page/editor.js"),
    include_str!("page/scene.js"),
    include_str!("page/story.js"),
    include_str!("page/main.js"),
];

/// Nothing is loaded; the page's own script alone is run, and may ask this server alone.
fn policy(nonce: &str) -> String {
    format!(
        "default-src 'none'; script-src 'nonce-{nonce}'; style-src 'unsafe-inline'; \
         connect-src 'self'; form-action 'none'; base-uri 'none'; frame-ancestors 'none'"
    )
}

/// The page as the folder is. The nonce is another one each time.
pub fn response(files: &Files, nonce: &str) -> Response {
    let found = match files.found() {
        Ok(found) => found,
        Err(stop) => return Response::plain(http::FAULT, &stop.to_string()),
    };
    let begin = Json::Object(vec![
        ("kept", kept(&found.kept)),
        ("more", found.more.into()),
        ("stored", found.stored.into()),
        ("folder", files.path.display().to_string().into()),
    ]);
    let begin = in_script(&begin.to_string());
    let title = escaped(&files.name());
    let style = [COLOURS, PICTURES, TABLES, STYLE, &palette::style(MOST_RELATIONS)].concat();
    // Each part is put where its name stands; what is put in is not looked at again.
    let mut page = String::new();
    for (index, piece) in PAGE.split("{{").enumerate() {
        let (name, rest) = if index == 0 { ("", piece) } else { piece.split_once("}}").unwrap() };
        page.push_str(match name {
            "title" => &title,
            "style" => &style,
            "begin" => &begin,
            "nonce" => nonce,
            _ => "",
        });
        if name == "scripts" {
            SCRIPTS.iter().for_each(|script| page.push_str(script));
        }
        page.push_str(rest);
    }
    Response {
        status: http::OK,
        kind: "text/html; charset=utf-8",
        headers: vec![("Content-Security-Policy", policy(nonce))],
        body: page.into_bytes(),
    }
}

/// What the folder has, as the page keeps it.
pub fn kept(kept: &Kept) -> Json {
    let request = |named: &Named| -> Json {
        vec![named.event.clone(), named.from.clone(), named.to.clone()].into()
    };
    Json::Object(vec![
        ("source", kept.source.as_str().into()),
        ("requests", Json::List(kept.requests.iter().map(request).collect())),
    ])
}

/// JSON that cannot end the script that it stands in.
fn in_script(json: &str) -> String {
    json.replace('<', "\\u003c").replace('\u{2028}', "\\u2028").replace('\u{2029}', "\\u2029")
}

#[cfg(test)]
mod tests {
    use super::*;

    #[test]
    fn a_source_cannot_end_the_script() {
        assert_eq!(in_script("\"</script><!--\""), "\"\\u003c/script>\\u003c!--\"");
    }
}
