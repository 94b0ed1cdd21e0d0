//! How large a case is and how much work it may make.

use super::Rng;

/// The bounds of one case.
#[derive(Clone, Debug)]
pub struct Size {
    pub members: usize,
    pub relations: usize,
    pub events: usize,
    pub entries: usize,
    pub past: usize,
    pub first_edges: usize,
    pub calls: usize,
    /// How many formulas of two free variables come first.
    pub paired: usize,
    /// Fill the entry list up to its bound.
    pub fill: bool,
    /// The most steps one entry may take, worked out without remembering.
    pub entry_steps: usize,
    /// The most steps all tables together may take at one moment.
    pub table_steps: usize,
}

impl Size {
    /// Small mostly, seldom up to the limits of the terms file.
    pub fn random(rng: &mut Rng) -> Size {
        match rng.below(100) {
            0..=1 => Size::full(rng),
            2..=7 => Size::large(rng),
            8..=34 => Size::middle(rng),
            35..=38 => Size::paired(rng),
            _ => Size::small(rng),
        }
    }

    pub fn small(rng: &mut Rng) -> Size {
        let paired = usize::from(rng.percent(30));
        Size {
            members: rng.between(1, 4).max(rng.between(1, 4)),
            relations: rng.below(3),
            events: rng.between(1, 3),
            entries: rng.between(1, 20).max(rng.between(1, 20)) + 7 * paired,
            past: 5 + paired,
            first_edges: rng.below(12),
            calls: 24,
            paired,
            fill: false,
            entry_steps: 2_000,
            table_steps: 20_000,
        }
    }

    pub fn middle(rng: &mut Rng) -> Size {
        Size {
            members: rng.between(1, 8),
            relations: rng.below(5),
            events: rng.between(1, 5),
            entries: rng.between(8, 52),
            past: 10,
            first_edges: rng.below(24),
            calls: 20,
            paired: rng.below(2),
            fill: false,
            entry_steps: 4_000,
            table_steps: 100_000,
        }
    }

    /// About as many members as tables of two free variables have room for, and
    /// now and then one more.
    pub fn paired(rng: &mut Rng) -> Size {
        Size {
            members: rng.pick(&[9, 11, 12, 13, 14, 15, 15, 16, 16, 16, 16, 17, 17]),
            relations: rng.below(4),
            events: rng.between(1, 4),
            entries: rng.between(8, 24),
            past: 4,
            first_edges: rng.below(40),
            calls: 6,
            paired: rng.between(1, 2),
            fill: false,
            entry_steps: 2_000,
            table_steps: 300_000,
        }
    }

    pub fn large(rng: &mut Rng) -> Size {
        Size {
            members: rng.between(8, 64),
            relations: rng.below(17),
            events: rng.between(1, 16),
            entries: rng.between(16, 256),
            past: 32,
            first_edges: rng.below(200),
            calls: 6,
            paired: 0,
            fill: false,
            entry_steps: 4_000,
            table_steps: 1_000_000,
        }
    }

    /// At the limits of the terms file.
    pub fn full(rng: &mut Rng) -> Size {
        Size {
            members: 64,
            relations: 16,
            events: 16,
            entries: 256,
            first_edges: 300,
            calls: 4,
            fill: true,
            ..Size::large(rng)
        }
    }

    /// About how many edges of one relation leave or enter a member.
    pub fn degree(&self) -> usize {
        let places = self.members * self.relations.max(1);
        (1 + 4 * (self.first_edges + self.calls) / places).min(self.members)
    }
}
