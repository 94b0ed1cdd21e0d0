//! Members on a circle, with room for their names.

use super::tables::shortened;
use crate::words::Words;
use std::f64::consts::PI;

/// A point of the picture.
pub type Point = (f64, f64);

/// A rectangle of the picture: left, top, right, bottom.
pub type Area = (f64, f64, f64, f64);

/// Loops of a member reach out so differently, and are turned so far from its name.
const LOOPS: usize = 4;
const LOOP_TURN: f64 = PI / 3.0;

/// Where everything is on the picture.
pub struct Layout {
    pub places: Vec<Point>,
    /// The radius of a member's dot.
    pub dot: f64,
    /// The length of a relation's arrow.
    pub arrow: f64,
    /// How far loops reach out of the circle.
    pub loops: f64,
    /// Which members have a loop at some moment.
    has_loop: Vec<bool>,
    pub font: f64,
    pub names: Vec<String>,
    radius: f64,
}

/// A bent line.
#[derive(Clone, Copy)]
pub struct Curve {
    start: Point,
    /// Where the lines that touch its ends meet.
    bend: Point,
    end: Point,
}

impl Curve {
    pub fn path(&self) -> String {
        let Curve { start, bend, end } = self;
        format!(
            "M{:.1} {:.1}Q{:.1} {:.1} {:.1} {:.1}",
            start.0, start.1, bend.0, bend.1, end.0, end.1
        )
    }

    /// A point on it, from 0 to 1.
    pub fn at(&self, part: f64) -> Point {
        let Curve { start, bend, end } = self;
        let (a, b, c) = ((1.0 - part).powi(2), 2.0 * part * (1.0 - part), part.powi(2));
        (a * start.0 + b * bend.0 + c * end.0, a * start.1 + b * bend.1 + c * end.1)
    }
}

impl Layout {
    /// `has_loop`: which members have an edge to themselves at some moment.
    pub fn new(words: &Words, has_loop: Vec<bool>) -> Layout {
        let members = words.terms.members;
        let radius = if members == 1 { 0.0 } else { 94.0 + members as f64 * 3.0 };
        let place = |member: usize| {
            let (x, y) = direction(member, members);
            (radius * x, radius * y)
        };
        Layout {
            places: (0..members).map(place).collect(),
            dot: 8.0,
            arrow: 10.0,
            loops: 26.0,
            has_loop,
            font: 14.0,
            names: (0..members).map(|member| shortened(&words.member(member))).collect(),
            radius,
        }
    }

    /// Away from the middle, at a member.
    pub fn outward(&self, member: usize) -> Point {
        direction(member, self.places.len())
    }

    /// The radius of the ring around a dot that takes part in an event.
    pub fn ring(&self) -> f64 {
        self.dot + 3.0
    }

    /// How far a line of a length is drawn to the middle, so that long ones
    /// part and stay inside the circle.
    fn pull(&self, length: f64) -> f64 {
        let most = if self.places.len() <= 6 { 0.0 } else { 0.25 };
        most * (length / self.radius.max(1.0)).min(1.0)
    }

    /// A bent line between two dots that leaves room for arrows at its ends.
    pub fn curve(&self, from: usize, to: usize, bend: f64, arrows: [f64; 2]) -> Curve {
        let (a, b) = (self.places[from], self.places[to]);
        let (dx, dy) = (b.0 - a.0, b.1 - a.1);
        let near = (1.0 - self.pull(dx.hypot(dy))) / 2.0;
        let c = ((a.0 + b.0) * near + dy * bend, (a.1 + b.1) * near - dx * bend);
        let toward = |end: Point, far: f64| {
            let (x, y) = (c.0 - end.0, c.1 - end.1);
            let length = x.hypot(y).max(1e-6);
            let far = far.min(length * 0.8);
            (end.0 + x / length * far, end.1 + y / length * far)
        };
        Curve {
            start: toward(a, self.dot + 1.5 + arrows[0]),
            bend: c,
            end: toward(b, self.dot + 1.5 + arrows[1]),
        }
    }

    /// How far a loop is turned from the outward direction, so that it keeps off the name.
    fn loop_turn(&self, member: usize) -> f64 {
        let right = self.anchor(member) == "start";
        let up = self.outward(member).1 <= 0.0;
        if right == up {
            -LOOP_TURN
        } else {
            LOOP_TURN
        }
    }

    /// A loop beside the name of a dot: its ends, and what it bends towards.
    fn looped(&self, member: usize, order: usize) -> [Point; 4] {
        let (x, y) = self.places[member];
        let (ox, oy) = self.outward(member);
        let turn = self.loop_turn(member);
        let turned = |angle: f64, far: f64| {
            let (sin, cos) = (turn + angle).sin_cos();
            (x + (ox * cos - oy * sin) * far, y + (ox * sin + oy * cos) * far)
        };
        let reach = (self.dot + self.loops) * (1.2 + 0.1 * (order % LOOPS) as f64);
        let (leaves, enters) = (turned(-0.6, self.dot), turned(0.6, self.dot + 1.5));
        [leaves, turned(-0.75, reach), turned(0.75, reach), enters]
    }

    /// A loop that leaves room for an arrow at its end.
    pub fn loop_path(&self, member: usize, order: usize, arrow: f64) -> String {
        let [a, b, c, d] = self.looped(member, order);
        let (x, y) = (c.0 - d.0, c.1 - d.1);
        let part = arrow / x.hypot(y).max(arrow);
        let d = (d.0 + x * part, d.1 + y * part);
        format!(
            "M{:.1} {:.1}C{:.1} {:.1} {:.1} {:.1} {:.1} {:.1}",
            a.0, a.1, b.0, b.1, c.0, c.1, d.0, d.1
        )
    }

    /// Two bent lines that lie close to a loop.
    pub fn loop_curves(&self, member: usize, order: usize) -> [Curve; 2] {
        let [a, b, c, d] = self.looped(member, order);
        let middle = ((a.0 + 3.0 * (b.0 + c.0) + d.0) / 8.0, (a.1 + 3.0 * (b.1 + c.1) + d.1) / 8.0);
        [Curve { start: a, bend: b, end: middle }, Curve { start: middle, bend: c, end: d }]
    }

    /// Where a member's name begins or ends, on the far side of its dot.
    pub fn name_place(&self, member: usize) -> Point {
        let (x, y) = self.outward(member);
        let far = self.radius + self.dot + 11.0;
        (far * x, far * y)
    }

    /// `start`, `middle` or `end`: which part of the name is at its place.
    pub fn anchor(&self, member: usize) -> &'static str {
        match self.outward(member).0 {
            x if x > 0.3 => "start",
            x if x < -0.3 => "end",
            // A loop has the other side.
            x if self.has_loop[member] && x > -1e-6 => "start",
            _ if self.has_loop[member] => "end",
            _ => "middle",
        }
    }

    /// Where a member's name is.
    pub fn name_area(&self, member: usize) -> Area {
        let wide = self.width(&self.names[member]);
        let (x, y) = self.name_place(member);
        let (left, right) = match self.anchor(member) {
            "start" => (x, x + wide),
            "end" => (x - wide, x),
            _ => (x - wide / 2.0, x + wide / 2.0),
        };
        (left, y - self.font, right, y + self.font)
    }

    /// How wide a text is.
    pub fn width(&self, text: &str) -> f64 {
        text.chars().count() as f64 * self.font * 0.6
    }

    /// The picture's edges.
    pub fn bounds(&self) -> Area {
        let (mut left, mut top, mut right, mut bottom) = (0.0f64, 0.0f64, 0.0f64, 0.0f64);
        let (reach, edge) = (self.dot + 6.0, 6.0);
        for (member, &(x, y)) in self.places.iter().enumerate() {
            let name = self.name_area(member);
            left = left.min(name.0).min(x - reach);
            top = top.min(name.1).min(y - reach);
            right = right.max(name.2).max(x + reach);
            bottom = bottom.max(name.3).max(y + reach);
            if self.has_loop[member] {
                for curve in self.loop_curves(member, LOOPS - 1) {
                    let (x, y) = curve.bend;
                    (left, right) = (left.min(x), right.max(x));
                    (top, bottom) = (top.min(y), bottom.max(y));
                }
            }
        }
        (left - edge, top - edge, right + edge, bottom + edge)
    }
}

/// Where a member is on the circle: the first at the top, then clockwise.
fn direction(member: usize, members: usize) -> Point {
    let angle = 2.0 * PI * member as f64 / members as f64 - PI / 2.0;
    (angle.cos(), angle.sin())
}
