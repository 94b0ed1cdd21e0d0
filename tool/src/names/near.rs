//! The known word that is nearest to one that nobody knows.

/// `; did you mean ...?` for a word that nobody knows, or nothing.
pub fn did_you_mean<'a>(word: &str, known: impl IntoIterator<Item = &'a str>) -> String {
    nearest(word, known).map_or_else(String::new, |near| format!("; did you mean `{near}`?"))
}

/// The known word nearest to a given one, if it is near enough for a slip.
pub fn nearest<'a>(word: &str, known: impl IntoIterator<Item = &'a str>) -> Option<&'a str> {
    let letters = word.chars().count();
    let far = |other: &str| distance(&word.to_lowercase(), &other.to_lowercase());
    let measured = known.into_iter().map(|other| (far(other), other));
    let (steps, best) = measured.min_by_key(|&(steps, _)| steps)?;
    let near = steps <= 1 + letters.max(best.chars().count()) / 4 && steps < letters.max(2);
    near.then_some(best)
}

/// How many letters have to be put in, left out, changed or swapped with the
/// next to make one word of the other.
fn distance(one: &str, other: &str) -> usize {
    let (one, other): (Vec<char>, Vec<char>) = (one.chars().collect(), other.chars().collect());
    let mut rows: Vec<Vec<usize>> = vec![(0..=other.len()).collect()];
    for i in 1..=one.len() {
        let mut row = vec![i];
        for j in 1..=other.len() {
            let change = rows[i - 1][j - 1] + usize::from(one[i - 1] != other[j - 1]);
            let mut least = change.min(rows[i - 1][j] + 1).min(row[j - 1] + 1);
            if i > 1 && j > 1 && one[i - 1] == other[j - 2] && one[i - 2] == other[j - 1] {
                least = least.min(rows[i - 2][j - 2] + 1);
            }
            row.push(least);
        }
        rows.push(row);
    }
    rows[one.len()][other.len()]
}
