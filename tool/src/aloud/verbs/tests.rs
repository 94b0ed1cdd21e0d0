//! Verbs and their forms.

use super::*;

fn forms(word: &str) -> String {
    let verb = verb(word).unwrap();
    format!("{} {} {} {} {}", verb.base, verb.third, verb.past, verb.participle, verb.preposition)
}

#[test]
fn inflections() {
    assert_eq!(forms("owns"), "own owns owned owned ");
    assert_eq!(forms("forgive"), "forgive forgives forgave forgiven ");
    assert_eq!(forms("share"), "share shares shared shared with");
    assert_eq!(forms("withdraw"), "withdraw withdraws withdrew withdrawn from");
    assert_eq!(forms("reply"), "reply replies replied replied to");
    assert_eq!(forms("expel"), "expel expels expelled expelled ");
    assert_eq!(forms("unblock"), "unblock unblocks unblocked unblocked ");
    assert_eq!(forms("teaches"), "teach teaches taught taught ");
    assert_eq!(forms("weak-view"), "weak-view weak-views weak-viewed weak-viewed ");
    assert_eq!(forms("part"), "part parts parted parted from");
    assert_eq!(forms("vouch"), "vouch vouches vouched vouched for");
    assert_eq!(forms("cut"), "cut cuts cut cut ");
    assert_eq!(forms("take-back"), "take back takes back took back taken back from");
    assert_eq!(forms("picks_up"), "pick up picks up picked up picked up ");
}

#[test]
fn guesses() {
    for (name, done) in
        [("hoist", "hoisted"), ("nudge", "nudged"), ("pry", "pried"), ("zap", "zapped")]
    {
        assert_eq!(guessed(name), done);
    }
}

#[test]
fn the_past_of_words_that_were_told() {
    let past = |may: &str, has: &str| Verb::told(may, has).past;
    assert_eq!(past("take back from", "taken back from"), "took back from");
    assert_eq!(past("play a demo for", "played a demo for"), "played a demo for");
    assert_eq!(past("frob", "frobbed"), "frobbed");
}

#[test]
fn words_that_are_no_verbs() {
    for word in ["friend", "blacklist", "view_weak", "Own", "", "s", "-"] {
        assert_eq!(verb(word), None, "{word}");
    }
}
