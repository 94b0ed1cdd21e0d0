//! A source as it was written: declarations, definitions and formulas.

/// A stretch of the source text, in bytes. Where a thing was written doesn't
/// count when two sources are compared.
#[derive(Clone, Copy, Debug, Default)]
pub struct Span {
    pub start: usize,
    pub end: usize,
}

impl Span {
    /// From the start of one stretch to the end of another.
    pub fn to(self, other: Span) -> Span {
        Span { start: self.start, end: other.end }
    }

    /// Its words, one space between two.
    pub fn words(self, text: &str) -> String {
        let part = text.get(self.start..self.end).unwrap_or("");
        part.split_whitespace().collect::<Vec<_>>().join(" ")
    }
}

impl PartialEq for Span {
    fn eq(&self, _: &Span) -> bool {
        true
    }
}

/// A name that the writer chose.
#[derive(Clone, Debug, PartialEq)]
pub struct Name {
    pub text: String,
    pub span: Span,
}

impl Name {
    /// A name that stands nowhere in a text.
    pub fn new(text: &str) -> Name {
        Name { text: text.to_string(), span: Span::default() }
    }
}

/// A whole source. Members, relations and events are numbered in this order.
#[derive(Clone, Debug, Default, PartialEq)]
pub struct Source {
    pub members: Vec<Name>,
    /// Members by kind, where they were declared so.
    pub kinds: Vec<MemberKind>,
    pub relations: Vec<Name>,
    pub events: Vec<Event>,
    /// The events whose denied requests are kept.
    pub kept: Vec<Name>,
    pub definitions: Vec<Definition>,
    pub first: Vec<Fact>,
}

/// Members that were declared together under a name.
#[derive(Clone, Debug, PartialEq)]
pub struct MemberKind {
    pub name: Name,
    pub members: Vec<Name>,
    /// The relation that it becomes, once it is known which word a formula has for it.
    pub relation: Option<String>,
}

impl Source {
    pub fn is_event(&self, label: &str) -> bool {
        self.events.iter().any(|event| event.name.text == label)
    }

    /// The definition of a name.
    pub fn defined(&self, name: &str) -> Option<&Definition> {
        self.definitions.iter().find(|known| known.name.text == name)
    }

    /// Adds what another source has, after this one's.
    pub fn add(&mut self, other: Source) {
        self.members.extend(other.members);
        self.kinds.extend(other.kinds);
        self.relations.extend(other.relations);
        self.events.extend(other.events);
        self.kept.extend(other.kept);
        self.definitions.extend(other.definitions);
        self.first.extend(other.first);
    }
}

#[derive(Clone, Debug, PartialEq)]
pub struct Event {
    pub name: Name,
    /// How it is said in sentences, where the source tells: what follows `has`, or
    /// what follows `may`, a slash, and what follows `has`.
    pub said: Option<String>,
    pub policy: Formula,
    pub effects: Vec<Effect>,
}

/// One change that a granted event makes to a relation.
#[derive(Clone, Debug, PartialEq)]
pub struct Effect {
    pub add: bool,
    pub from: Person,
    pub relation: Name,
    pub to: Person,
}

/// A formula with a name and, if it speaks of people, their names in it.
#[derive(Clone, Debug, PartialEq)]
pub struct Definition {
    pub name: Name,
    pub parameters: Vec<Name>,
    pub body: Formula,
}

/// An edge that is there from the start.
#[derive(Clone, Debug, PartialEq)]
pub struct Fact {
    pub from: Name,
    pub relation: Name,
    pub to: Name,
}

/// Somebody a formula speaks of.
#[derive(Clone, Debug, PartialEq)]
pub struct Person {
    pub who: Who,
    pub span: Span,
}

#[derive(Clone, Debug, PartialEq, Eq)]
pub enum Who {
    /// The initiator of the request.
    Me,
    /// The target of the request.
    Target,
    /// The member of whom the formula is said.
    Here,
    Named(String),
}

impl Person {
    /// A person that stands nowhere in a text.
    pub fn new(who: Who) -> Person {
        Person { who, span: Span::default() }
    }
}

#[derive(Clone, Debug, PartialEq)]
pub struct Formula {
    pub kind: Kind,
    pub span: Span,
}

impl Formula {
    /// A formula that stands nowhere in a text.
    pub fn new(kind: Kind) -> Formula {
        Formula { kind, span: Span::default() }
    }

    /// The formulas that it is made of.
    pub fn parts(&self) -> Vec<&Formula> {
        match &self.kind {
            Kind::True | Kind::False | Kind::Is(..) | Kind::Edge(..) | Kind::Defined(..) => vec![],
            Kind::Not(f) | Kind::Once(f) | Kind::Always(f) | Kind::Never(f) => vec![f],
            Kind::Previously(f) | Kind::At(_, f) | Kind::As(_, f) => vec![f],
            Kind::And(f, g) | Kind::Or(f, g) | Kind::Since(f, g) => vec![f, g],
            Kind::Walk(walk) => vec![&walk.body],
            Kind::Step(step) => vec![&step.leads, &step.body],
        }
    }
}

pub type Part = Box<Formula>;

#[derive(Clone, Debug, PartialEq)]
pub enum Kind {
    True,
    False,
    /// `a is b`; where b names no person: the attribute or definition b of a.
    Is(Person, Person),
    /// `a owns b`, the word a relation, an event, `denied` with an event, or a
    /// definition of two people. None stands for `someone`; never on both sides.
    Edge(Option<Person>, Name, Option<Person>),
    /// `name` or `name(a, b)`.
    Defined(Name, Vec<Person>),
    Not(Part),
    And(Part, Part),
    Or(Part, Part),
    Since(Part, Part),
    Once(Part),
    Always(Part),
    Never(Part),
    Previously(Part),
    Walk(Walk),
    Step(Step),
    /// `at a: f`: f said of a.
    At(Person, Part),
    /// `as x: f`: f, x naming the member of whom it is said.
    As(Name, Part),
}

/// `some`, `every` or `at least k` of those at the other end of the edges that
/// leave (outwards) or reach a person. The body is said of each of them.
#[derive(Clone, Debug, PartialEq)]
pub struct Walk {
    pub quantifier: Quantifier,
    pub person: Person,
    pub label: Name,
    pub outwards: bool,
    pub name: Option<Name>,
    pub body: Part,
}

/// `some` or `every x such that f: g`: a step to whom f holds of, whatever it
/// says; the body is said of each of them.
#[derive(Clone, Debug, PartialEq)]
pub struct Step {
    pub every: bool,
    pub name: Name,
    pub leads: Part,
    pub body: Part,
}

#[derive(Clone, Copy, Debug, PartialEq, Eq)]
pub enum Quantifier {
    Some,
    Every,
    AtLeast(usize),
}
