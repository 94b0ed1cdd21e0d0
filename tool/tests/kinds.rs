//! Kinds of members: as attributes in formulas, and in `who`.

mod run_support;

use run_support::{run, Folder};

const SOURCE: &str = "\
members players: ben, cleo; presets: warm-pad, glass-bell
members north
relation owns
event share when me is player and target is player
event load when me is player and target is preset and me is not target
first ben owns warm-pad
";

fn folder() -> Folder {
    let folder = Folder::new();
    folder.write("terms.say", SOURCE);
    folder
}

#[test]
fn a_kind_is_an_attribute() {
    let folder = folder();
    let said = run(&["aloud", folder.path()]).out;
    let policy = "You may share with the target if you are a player and the target is a player.";
    assert!(said.contains(policy), "{said}");
    assert_eq!(run(&["compile", folder.path()]).status, 0);
    let names = folder.read("names.tsv");
    assert!(names.contains("relation\t1\tplayer\nrelation\t2\tpreset\n"), "{names}");
    let terms = folder.read("terms.tsv");
    assert!(terms.ends_with("G\t0\t0\t2\nG\t1\t0\t0\nG\t1\t1\t1\nG\t2\t2\t2\nG\t2\t3\t3\n"));
    // Without a formula that asks for it there is no relation.
    let plain = "members players: ben; presets: saw\nevent share by anyone\n";
    folder.write("terms.say", plain);
    assert!(run(&["compile", folder.path(), "--print"]).out.starts_with("M\t2\nL\t0\t1\n"));
}

/// The relations and first edges of a source.
fn compiled(source: &str) -> (String, String) {
    let folder = Folder::new();
    folder.write("terms.say", source);
    let said = run(&["compile", folder.path()]);
    assert_eq!(said.status, 0, "{}", said.err);
    let lines = |text: String, start: &str| {
        let lines = text.lines().filter(|line| line.starts_with(start));
        lines.map(|line| line.replace('\t', " ") + "\n").collect::<String>()
    };
    (lines(folder.read("names.tsv"), "relation"), lines(folder.read("terms.tsv"), "G"))
}

/// One relation for all words of a kind, in however many parts it is declared.
#[test]
fn a_kind_by_its_own_name() {
    let parts = "members players: ben; presets: saw\nmembers players: cleo\nevent share when ";
    let edges = "G 0 0 0\nG 0 2 2\n".to_string();
    for (asked, name) in [
        ("me is player", "player"),
        ("me is players", "players"),
        ("me is players and target is player", "player"),
    ] {
        let relation = format!("relation 0 {name}\n");
        assert_eq!(compiled(&format!("{parts}{asked}\n")), (relation, edges.clone()), "{asked}");
    }
    let people = compiled("members people: ann; staff: bob\nevent share when me is person\n");
    assert_eq!(people, ("relation 0 person\n".to_string(), "G 0 0 0\n".to_string()));
    // The own name of a kind is that kind's, wherever it is declared.
    let buses = "members buses: ann; bus: bob\nevent share when me is bus\n";
    assert_eq!(compiled(buses), ("relation 0 bus\n".to_string(), "G 0 1 1\n".to_string()));
    let boxes = "members boxes: ann; houses: bob\nevent share when me is box or me is house\n";
    let both = "relation 0 box\nrelation 1 house\n".to_string();
    assert_eq!(compiled(boxes), (both, "G 0 0 0\nG 1 1 1\n".to_string()));
}

/// Terms written back have their kinds, and compile to the same.
#[test]
fn kinds_are_written_back() {
    let folder = folder();
    let other = folder.file("other");
    let other = other.to_str().unwrap();
    assert_eq!(run(&["compile", folder.path(), "-o", other]).status, 0);
    let source = run(&["source", other]).out;
    let declared =
        "members players: ben, cleo\nmembers presets: warm-pad, glass-bell\nmember north\n\
                    relation owns\n";
    assert!(source.starts_with(declared), "{source}");
    assert!(source.contains("me is player and target is player"), "{source}");
    assert!(source.ends_with("\nfirst ben owns warm-pad\n"), "{source}");
    let (terms, names) = (folder.read("other/terms.tsv"), folder.read("other/names.tsv"));
    folder.write("terms.say", &source);
    assert_eq!(run(&["compile", folder.path()]).status, 0);
    assert_eq!((folder.read("terms.tsv"), folder.read("names.tsv")), (terms, names));
}

/// A relation of a kind's name that has other edges stays, and so does a kind in two places.
#[test]
fn kinds_beside_relations_are_written_back() {
    let folder = folder();
    let source = "members players: ben, cleo; presets: warm-pad\nmembers players: dana\n\
                  relations player, owns\nevent share when me is player\nfirst ben is player\n";
    folder.write("terms.say", source);
    let other = folder.file("other");
    let other = other.to_str().unwrap();
    assert_eq!(run(&["compile", folder.path(), "-o", other]).status, 0);
    let back = run(&["source", other]).out;
    for part in [
        "members players: ben, cleo\nmembers presets: warm-pad\nmembers players: dana\n",
        "relations player, owns\n",
        "first ben is player\n",
    ] {
        assert!(back.contains(part), "{part}\n\n{back}");
    }
    folder.write("terms.say", &back);
    assert_eq!(run(&["compile", folder.path(), "--print"]).out, folder.read("other/terms.tsv"));
}

/// How events are said comes back too.
#[test]
fn wordings_are_written_back() {
    let folder = folder();
    let source = "members ben, saw\nevent peek said \"peeked at\" by anyone\n\
                  event nod said \"give a nod to / nodded at\" by anyone\n";
    folder.write("terms.say", source);
    let other = folder.file("other");
    assert_eq!(run(&["compile", folder.path(), "-o", other.to_str().unwrap()]).status, 0);
    let back = run(&["source", other.to_str().unwrap()]).out;
    let events = "event peek said \"peeked at\", \
                  nod said \"give a nod to / nodded at\" by anyone\n";
    assert!(back.contains(events), "{back}");
}

#[test]
fn who_stands_by_kinds() {
    let folder = folder();
    let said = run(&["who", folder.path(), "load", "--from", "players", "--to", "presets"]).out;
    assert!(said.starts_with("load at moment 0: 4 of 4 pairs may"), "{said}");
    assert!(said.ends_with(" ben  ● ●\ncleo  ● ●\n"), "{said}");
    let said = run(&["who", folder.path(), "load"]).out;
    assert!(said.contains("cleo  · ·  ● ●  ·\n\n"), "{said}");
    let said = run(&["who", folder.path(), "load", "--to", "warm-pad", "--json"]).out;
    assert!(said
        .starts_with("{\"event\":\"load\",\"moment\":0,\"from\":\"ben\",\"to\":[\"warm-pad\"]}"));
    let said = run(&["who", folder.path(), "load", "--to", "nobody"]);
    assert_eq!(said.status, 2);
    assert!(said.err.contains("kinds: players, presets"), "{}", said.err);
    let said = run(&["who", folder.path(), "load", "--from", "player"]);
    assert_eq!(said.status, 2);
    assert!(said.err.contains("`player`; did you mean `players`?"), "{}", said.err);
}

#[test]
fn kinds_are_stored_with_the_names() {
    let folder = folder();
    let asked =
        |path: &str| run(&["who", path, "load", "--from", "players", "--to", "presets"]).out;
    let wanted = asked(folder.path());
    let path = |name: &str| folder.file(name).display().to_string();
    let (later, then) = (path("later"), path("then"));
    let said = run(&["run", folder.path(), "--store", &path("later/terms.tsv")]);
    assert_eq!(said.status, 0, "{}", said.err);
    assert!(folder.read("later/names.tsv").contains("member\t0\tben\tplayers\n"));
    assert!(folder.read("later/names.tsv").contains("member\t4\tnorth\n"));
    assert_eq!(asked(&later), wanted);
    let said = run(&["revise", &later, folder.path(), "--store", &path("then/terms.tsv")]);
    assert_eq!(said.status, 0, "{}", said.err);
    assert_eq!(asked(&then), wanted);
    assert_eq!(run(&["compile", folder.path(), "-o", &path("compiled")]).status, 0);
    assert_eq!(folder.read("compiled/names.tsv"), folder.read("later/names.tsv"));
    // Names that were stored without the kinds get them; other names stay.
    let bare = folder.read("later/names.tsv").replace("\tplayers", "").replace("\tpresets", "");
    folder.write("later/names.tsv", &bare);
    let again = ["run", folder.path(), "--store", &path("later/terms.tsv")];
    assert_eq!(run(&again).status, 0);
    assert_eq!(asked(&later), wanted);
    folder.write("later/names.tsv", &bare.replace("cleo", "clea"));
    assert_eq!(run(&again).status, 3);
}

#[test]
fn mistakes() {
    let folder = folder();
    folder.write("terms.say", &SOURCE.replace("me is player and", "me is plyer and"));
    let said = run(&["check", folder.path()]).err;
    assert!(said.contains("did you mean `player`?"), "{said}");
    folder.write("terms.say", &SOURCE.replace("; presets", "; presets, x"));
    let said = run(&["check", folder.path()]).err;
    assert!(said.contains("terms.say:1:"), "{said}");
}

/// The two patterns of docs/LANGUAGE.md for three at once.
#[test]
fn three_at_once() {
    let page = concat!(env!("CARGO_MANIFEST_DIR"), "/../docs/LANGUAGE.md");
    let page = std::fs::read_to_string(page).unwrap();
    let section = page.split_once("\n## Three at once\n").unwrap().1.split("\n## ").next().unwrap();
    let (few, many) = section.split_once("\n**With more than 16 members**").unwrap();
    let code = |text: &str| -> String {
        let lines = text.lines().filter_map(|line| line.strip_prefix("    "));
        lines.map(|line| format!("{line}\n")).collect()
    };
    let answers = |pattern: &str, requests: &str| -> Vec<bool> {
        let (source, requests) = pattern.split_once(requests).unwrap();
        let folder = Folder::new();
        folder.write("terms.say", &code(source));
        folder.write("requests.say", &code(requests));
        let said = run(&["run", folder.path(), "--json"]);
        assert_eq!(said.err, "");
        said.out.lines().map(|line| line.contains("\"answer\":\"grant\"")).collect()
    };
    let picked = [true, true, true, false, false, true, true, false];
    assert_eq!(answers(few, "Two requests share"), picked);
    let slips = [true, true, true, true, false, false, true, false];
    assert_eq!(answers(many, "Three requests share"), slips);
}
