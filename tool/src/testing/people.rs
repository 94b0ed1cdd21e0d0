//! Whom a statement speaks of: `pete`, `pete and quin`, `only pete`, `anyone`, `nobody`.

/// Members who may, out of those that are looked at.
#[derive(Clone, Debug, PartialEq, Eq)]
pub enum People {
    Anyone,
    Nobody,
    /// These and, of the others, nothing is said.
    These(Vec<usize>),
    /// These and no others.
    Only(Vec<usize>),
}

impl People {
    /// Everyone who is looked at, with whether they may.
    pub fn of(&self, members: usize) -> Vec<(usize, bool)> {
        match self {
            People::Anyone => (0..members).map(|member| (member, true)).collect(),
            People::Nobody => (0..members).map(|member| (member, false)).collect(),
            People::These(some) => some.iter().map(|&member| (member, true)).collect(),
            People::Only(some) => {
                (0..members).map(|member| (member, some.contains(&member))).collect()
            }
        }
    }
}

#[cfg(test)]
mod tests {
    use super::*;

    #[test]
    fn who_is_looked_at() {
        assert_eq!(People::These(vec![1]).of(2), [(1, true)]);
        assert_eq!(People::Only(vec![1]).of(2), [(0, false), (1, true)]);
        assert_eq!(People::Nobody.of(1), [(0, false)]);
        assert_eq!(People::Anyone.of(1), [(0, true)]);
    }
}
