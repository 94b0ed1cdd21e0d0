//! The verbs that names of relations and events are taken for.

mod particle;

use particle::with_particle;

/// A verb with the forms that sentences need.
#[derive(Clone, Debug, PartialEq, Eq)]
pub struct Verb {
    pub base: String,
    /// Third person: owns.
    pub third: String,
    /// Past tense: owned.
    pub past: String,
    /// Past participle, as in "has owned".
    pub participle: String,
    /// What comes before the object: "with", or nothing.
    pub preposition: &'static str,
}

impl Verb {
    /// A verb as a source tells it: what follows `may`, and what follows `has`.
    pub fn told(may: &str, has: &str) -> Verb {
        let (base, participle) = (may.to_string(), has.to_string());
        let past = past_of(has).unwrap_or_else(|| has.to_string());
        Verb { third: base.clone(), base, past, participle, preposition: "" }
    }
}

/// Verbs that are said without a preposition and inflected by rule.
const PLAIN: &str = "
    accept acknowledge add admit allow answer appoint approve archive assess attend ask audit
    assign assist audition authorize back ban befriend block borrow browse call cancel certify change check claim clear close
    confirm contact contain copy create decline delete deny disable discharge dismiss dominate
    download drop edit employ enable endorse enter expel export fetch fire flag follow greet
    guard help hire ignore import include inspect install invite join judge kick lift like list load
    lock love manage mark mention mentor merge mix move mute name nominate notify open order own pass pause pick pin
    play praise prescribe preview print promote publish query quote raise rate receive recommend record refer
    refuse reject release remove rename remix rent repair replace report request reserve restore resume return
    review revoke save scan seize share shield sign sponsor star start stop store submit supervise support suspect
    suspend tag thank touch track trust unfriend update upload use verify view visit warn watch
";

/// Verbs that are not inflected by rule: base, past, participle.
const IRREGULAR: &[(&str, &str, &str)] = &[
    ("buy", "bought", "bought"),
    ("choose", "chose", "chosen"),
    ("cut", "cut", "cut"),
    ("feed", "fed", "fed"),
    ("find", "found", "found"),
    ("forget", "forgot", "forgotten"),
    ("forgive", "forgave", "forgiven"),
    ("freeze", "froze", "frozen"),
    ("get", "got", "got"),
    ("give", "gave", "given"),
    ("have", "had", "had"),
    ("hear", "heard", "heard"),
    ("hold", "held", "held"),
    ("keep", "kept", "kept"),
    ("know", "knew", "known"),
    ("lead", "led", "led"),
    ("leave", "left", "left"),
    ("lend", "lent", "lent"),
    ("make", "made", "made"),
    ("meet", "met", "met"),
    ("pay", "paid", "paid"),
    ("put", "put", "put"),
    ("read", "read", "read"),
    ("ring", "rang", "rung"),
    ("run", "ran", "run"),
    ("see", "saw", "seen"),
    ("sell", "sold", "sold"),
    ("send", "sent", "sent"),
    ("show", "showed", "shown"),
    ("speak", "spoke", "spoken"),
    ("steal", "stole", "stolen"),
    ("take", "took", "taken"),
    ("teach", "taught", "taught"),
    ("tell", "told", "told"),
    ("withdraw", "withdrew", "withdrawn"),
    ("write", "wrote", "written"),
];

/// Verbs whose last letter is doubled before -ed.
const DOUBLED: &[&str] = &[
    "admit", "ban", "drop", "expel", "flag", "pin", "scan", "star", "stop", "submit", "tag",
    "refer",
];

/// Verbs that are said with a preposition.
const PREPOSITIONS: &[(&str, &str)] = &[
    ("agree", "with"),
    ("apologize", "to"),
    ("apply", "to"),
    ("belong", "to"),
    ("comment", "on"),
    ("complain", "to"),
    ("connect", "to"),
    ("consent", "to"),
    ("defer", "to"),
    ("delegate", "to"),
    ("give", "to"),
    ("lend", "to"),
    ("listen", "to"),
    ("part", "from"),
    ("peek", "at"),
    ("post", "to"),
    ("publish", "to"),
    ("refer", "to"),
    ("register", "with"),
    ("reply", "to"),
    ("report", ""),
    ("resign", "from"),
    ("respond", "to"),
    ("sell", "to"),
    ("send", "to"),
    ("share", "with"),
    ("speak", "to"),
    ("subscribe", "to"),
    ("talk", "to"),
    ("transfer", "to"),
    ("unsubscribe", "from"),
    ("vote", "for"),
    ("vouch", "for"),
    ("withdraw", "from"),
    ("write", "to"),
];

/// The verb that a name is: in its base form or in the third person, perhaps
/// with words before it, as in `weak-view`, or a word after it, as in `take-back`.
pub fn verb(name: &str) -> Option<Verb> {
    if let Some(verb) = with_particle(name) {
        return Some(verb);
    }
    let place = name.rfind(['-', '_']).map_or(0, |place| place + 1);
    let (first, last) = name.split_at(place);
    let verb = single(last)?;
    let compound = |form: String| format!("{first}{form}");
    Some(Verb {
        base: compound(verb.base),
        third: compound(verb.third),
        past: compound(verb.past),
        participle: compound(verb.participle),
        preposition: verb.preposition,
    })
}

/// The past tense of what follows "has", if it begins with the participle of a known verb:
/// `taken back from` gives `took back from`.
fn past_of(has: &str) -> Option<String> {
    let (done, rest) = has.split_at(has.find(' ').unwrap_or(has.len()));
    done_by(done).map(|base| inflected(&base).past + rest)
}

fn single(word: &str) -> Option<Verb> {
    if !word.bytes().all(|byte| byte.is_ascii_lowercase()) {
        return None;
    }
    if is_base(word) {
        return Some(inflected(word));
    }
    let stems = [word.strip_suffix("s"), word.strip_suffix("es")];
    let stem = stems.into_iter().flatten().find(|stem| is_base(stem))?;
    let verb = inflected(stem);
    (verb.third == word).then_some(verb)
}

fn is_base(word: &str) -> bool {
    let known = |word: &str| {
        PLAIN.split_whitespace().any(|plain| plain == word)
            || IRREGULAR.iter().any(|(base, _, _)| *base == word)
            || PREPOSITIONS.iter().any(|(base, _)| *base == word)
    };
    let undone =
        ["un", "re", "dis", "over"].into_iter().filter_map(|first| word.strip_prefix(first));
    known(word) || undone.into_iter().any(known)
}

/// What may follow "has" for a name that is no known verb.
pub fn guessed(name: &str) -> String {
    let is_vowel = |letter: &char| "aeiou".contains(*letter);
    let letters: Vec<char> = name.chars().collect();
    // One short syllable: zap, zapped.
    let doubled = match letters[..] {
        [.., before, last] => {
            letters.iter().filter(|letter| is_vowel(letter)).count() == 1
                && is_vowel(&before)
                && last.is_ascii_lowercase()
                && !"hwxy".contains(last)
        }
        _ => false,
    };
    match letters.last().filter(|_| doubled) {
        Some(last) => format!("{name}{last}ed"),
        None => inflected(name).participle,
    }
}

/// The known verb whose participle a word is: `played` gives `play`.
pub fn done_by(word: &str) -> Option<String> {
    let irregular = IRREGULAR.iter().map(|(base, _, _)| *base);
    let said_with = PREPOSITIONS.iter().map(|(base, _)| *base);
    let mut known = PLAIN.split_whitespace().chain(irregular).chain(said_with);
    known.find(|base| inflected(base).participle == word).map(str::to_string)
}

fn inflected(base: &str) -> Verb {
    let consonant_y = base.strip_suffix('y').filter(|stem| !stem.ends_with(['a', 'e', 'o', 'u']));
    let hisses = ["s", "x", "z", "ch", "sh", "o"].iter().any(|end| base.ends_with(end));
    let third = match (base, consonant_y) {
        ("have", _) => "has".to_string(),
        (_, Some(stem)) => format!("{stem}ies"),
        _ if hisses => format!("{base}es"),
        _ => format!("{base}s"),
    };
    let regular = match consonant_y {
        Some(stem) => format!("{stem}ied"),
        None if base.ends_with('e') => format!("{base}d"),
        None if DOUBLED.contains(&base) => {
            format!("{base}{}ed", &base[base.len() - 1..])
        }
        None => format!("{base}ed"),
    };
    let irregular = IRREGULAR.iter().find(|(known, _, _)| base.ends_with(known));
    let irregular = irregular.filter(|(known, _, _)| {
        ["", "un", "re", "over"].contains(&&base[..base.len() - known.len()])
    });
    let (past, participle) = match irregular {
        Some((known, past, participle)) => {
            let first = &base[..base.len() - known.len()];
            (format!("{first}{past}"), format!("{first}{participle}"))
        }
        None => (regular.clone(), regular),
    };
    let preposition = PREPOSITIONS.iter().find(|(known, _)| *known == base);
    let preposition = preposition.map_or("", |(_, preposition)| preposition);
    Verb { base: base.to_string(), third, past, participle, preposition }
}

#[cfg(test)]
mod tests;
