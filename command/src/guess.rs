//! What a mistyped word was probably meant to be.

/// `; did you mean 'replay'?`, or nothing where no word is near.
pub fn near<'a>(word: &str, known: impl Iterator<Item = &'a str>) -> String {
    let typed: Vec<char> = word.chars().take(40).collect();
    let far = |name: &str| (distance(&typed, &name.chars().collect::<Vec<_>>()), name.to_string());
    let nearest = known.map(far).min_by_key(|(steps, _)| *steps);
    // two letters wrong, and at least two right
    let meant = nearest.filter(|(steps, name)| *steps <= 2 && steps + 2 <= name.trim_start_matches('-').len());
    meant.map_or(String::new(), |(_, name)| format!("; did you mean '{name}'?"))
}

/// How many letters must be put in, taken out, replaced, or swapped with their neighbour.
fn distance(a: &[char], b: &[char]) -> usize {
    let mut rows = vec![vec![0; b.len() + 1]; a.len() + 1];
    for i in 0..=a.len() {
        for j in 0..=b.len() {
            rows[i][j] = match (i, j) {
                (0, _) => j,
                (_, 0) => i,
                _ => {
                    let other = usize::from(a[i - 1] != b[j - 1]);
                    let least = (rows[i - 1][j] + 1).min(rows[i][j - 1] + 1).min(rows[i - 1][j - 1] + other);
                    let swapped = i > 1 && j > 1 && a[i - 1] == b[j - 2] && a[i - 2] == b[j - 1];
                    if swapped {
                        least.min(rows[i - 2][j - 2] + 1)
                    } else {
                        least
                    }
                }
            }
        }
    }
    rows[a.len()][b.len()]
}
