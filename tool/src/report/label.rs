//! Where the name of an event goes: on its line, which the name's halo parts.

use super::layout::{Area, Curve, Layout, Point};

/// How far along the line a name may stand; the middle is best.
const PARTS: [f64; 7] = [0.5, 0.42, 0.58, 0.34, 0.66, 0.26, 0.74];
/// Points of a line that a name keeps off.
pub const POINTS: usize = 40;

/// Less room than this is a name on another line.
const LEAST: f64 = 2.5;
/// The distance between the places that are tried where none on the line is free.
const STEP: f64 = 6.0;

/// What a name keeps off: members' circles, and other names.
pub struct Crowd<'a> {
    layout: &'a Layout,
    names: Vec<Area>,
}

/// Points of a line from end to end.
pub fn sampled(curve: &Curve) -> Vec<Point> {
    (0..=POINTS).map(|part| curve.at(part as f64 / POINTS as f64)).collect()
}

impl<'a> Crowd<'a> {
    pub fn new(layout: &'a Layout) -> Crowd<'a> {
        let names = (0..layout.places.len()).map(|member| layout.name_area(member)).collect();
        Crowd { layout, names }
    }

    /// How far a name is from the points of other lines; nothing if it lies on a circle or
    /// on another name.
    fn room(&self, area: Area, others: &[Point]) -> Option<f64> {
        let reach = self.layout.ring();
        let on_circle = self.layout.places.iter().any(|&dot| distance(dot, area) < reach);
        if on_circle || self.names.iter().any(|name| overlap(area, *name)) {
            return None;
        }
        Some(others.iter().map(|&point| distance(point, area)).fold(f64::INFINITY, f64::min))
    }

    /// Where a name of a size goes: the first place on its own line that is off other lines,
    /// or else off circles and names, or else the nearest one that is free and not too far.
    pub fn place(
        &mut self,
        own: &[Point],
        others: &[Point],
        (wide, high): Point,
        most: f64,
    ) -> Option<Area> {
        let around =
            |(x, y): Point| (x - wide / 2.0, y - high / 2.0, x + wide / 2.0, y + high / 2.0);
        let last = (own.len() - 1) as f64;
        let places = PARTS.map(|part| around(own[(last * part).round() as usize]));
        let room = |area: &Area| self.room(*area, others);
        let clear = places.iter().find(|area| room(area).is_some_and(|room| room > LEAST));
        let on_line = clear.or_else(|| places.iter().find(|area| room(area).is_some()));
        let area = on_line.copied().or_else(|| self.nearest(own, around, most))?;
        self.names.push(area);
        Some(area)
    }

    /// The free place that is nearest to a line.
    fn nearest(&self, own: &[Point], around: impl Fn(Point) -> Area, most: f64) -> Option<Area> {
        let far = |area: &Area| {
            own.iter().map(|&point| distance(point, *area)).fold(f64::INFINITY, f64::min)
        };
        let (left, top, right, bottom) = self.layout.bounds();
        let steps = |from: f64, to: f64| {
            (0..((to - from) / STEP) as usize).map(move |n| from + n as f64 * STEP)
        };
        let places = steps(top, bottom).flat_map(|y| steps(left, right).map(move |x| (x, y)));
        let free = places.map(around).filter(|area| self.room(*area, &[]).is_some());
        let nearest = free.min_by(|one, other| far(one).total_cmp(&far(other)));
        nearest.filter(|area| far(area) <= most)
    }
}

/// How far a point is from an area; inside it is 0.
fn distance((x, y): Point, (left, top, right, bottom): Area) -> f64 {
    let (dx, dy) = ((left - x).max(x - right).max(0.0), (top - y).max(y - bottom).max(0.0));
    dx.hypot(dy)
}

fn overlap(one: Area, other: Area) -> bool {
    one.0 < other.2 && other.0 < one.2 && one.1 < other.3 && other.1 < one.3
}

#[cfg(test)]
mod tests {
    use super::*;
    use crate::names::Names;
    use crate::words::Words;
    use keeper::terms::Terms;

    fn of(count: usize) -> Layout {
        let (terms, names) = (Terms { members: count, ..Terms::default() }, Names::default());
        Layout::new(&Words::new(&terms, &names), vec![false; count])
    }

    #[test]
    fn areas() {
        let area = (0.0, 0.0, 4.0, 2.0);
        assert_eq!(distance((2.0, 1.0), area), 0.0);
        assert_eq!(distance((7.0, 6.0), area), 5.0);
        assert!(overlap(area, (3.0, 1.0, 5.0, 3.0)) && !overlap(area, (4.0, 0.0, 5.0, 1.0)));
    }

    #[test]
    fn a_name_stands_on_the_middle_of_its_line() {
        let layout = of(6);
        let line = layout.curve(1, 4, 0.0, [0.0, 13.0]);
        let (left, top, right, bottom) =
            Crowd::new(&layout).place(&sampled(&line), &[], (60.0, 14.0), 0.0).unwrap();
        let (x, y) = line.at(0.5);
        let off = ((left + right) / 2.0 - x).hypot((top + bottom) / 2.0 - y);
        assert!(off < 0.1, "{off}");
    }

    /// A name that has no place near its line is left out.
    #[test]
    fn too_far_is_nowhere() {
        let layout = of(20);
        let line = sampled(&layout.curve(0, 1, 0.0, [0.0, 13.0]));
        let (mut crowd, size) = (Crowd::new(&layout), (200.0, 14.0));
        let most = 8.0;
        let places = (0..9).map(|_| crowd.place(&line, &[], size, most)).collect::<Vec<_>>();
        assert!(places[8].is_none(), "{places:?}");
        let far = |area: &Area| line.iter().map(|&one| distance(one, *area)).fold(99.0, f64::min);
        assert!(places.iter().flatten().all(|area| far(area) <= most));
    }

    /// Whatever the number of members, and whoever does it to whom.
    #[test]
    fn no_name_lies_on_a_circle() {
        for count in 2..=20 {
            let layout = of(count);
            let some = (0..count).step_by(3);
            for (from, to) in some.flat_map(|from| (0..count).map(move |to| (from, to))) {
                if from == to {
                    continue;
                }
                // Also where an edge of a relation goes along.
                let line = sampled(&layout.curve(from, to, 0.0, [0.0, 13.0]));
                let other = sampled(&layout.curve(from, to, 0.08, [0.0, 8.0]));
                for name in ["ask", "withdraw", "recommend-to"] {
                    let size = (layout.width(name), layout.font);
                    let area =
                        Crowd::new(&layout).place(&line, &other, size, f64::INFINITY).unwrap();
                    let free = |&dot: &Point| distance(dot, area) >= layout.ring();
                    assert!(layout.places.iter().all(free), "{name}: {from} to {to} of {count}");
                }
            }
        }
    }
}
