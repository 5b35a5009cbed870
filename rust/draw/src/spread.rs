//! Things in a row that are moved apart.

/// Places at least `spacing` apart, in the order given and as near to the wanted places as that allows: the sum of
/// squares of the distances is the least. Wanted places rise.
pub fn spread(wanted: &[f64], spacing: f64, first: f64) -> Vec<f64> {
    // Runs of neighbours that touch: how many, and the sum of what their first would want.
    let mut runs: Vec<(usize, f64)> = Vec::new();
    for want in wanted {
        let mut run = (1, *want);
        while let Some(before) = runs.last().copied() {
            let start = start_of(before, first);
            if start + spacing * before.0 as f64 <= start_of(run, first) {
                break;
            }
            runs.pop();
            // The later run starts as many spacings behind as the earlier has members.
            run = (before.0 + run.0, before.1 + run.1 - spacing * (before.0 * run.0) as f64);
        }
        runs.push(run);
    }
    let places = |run: &(usize, f64)| {
        let start = start_of(*run, first);
        (0..run.0).map(move |index| start + spacing * index as f64)
    };
    runs.iter().flat_map(places).collect()
}

/// Where a run starts: at the mean of what its members want, but not before the first place.
fn start_of((members, wants): (usize, f64), first: f64) -> f64 {
    (wants / members as f64).max(first)
}

#[cfg(test)]
mod tests {
    use super::spread;

    #[test]
    fn places_are_apart_and_near() {
        assert_eq!(spread(&[0.0, 50.0], 20.0, 0.0), [0.0, 50.0]);
        assert_eq!(spread(&[30.0, 40.0], 20.0, 0.0), [25.0, 45.0]);
        assert_eq!(spread(&[30.0, 30.0, 30.0, 200.0], 20.0, 0.0), [10.0, 30.0, 50.0, 200.0]);
        assert_eq!(spread(&[0.0, 1.0, 2.0], 20.0, 0.0), [0.0, 20.0, 40.0]);
        assert_eq!(spread(&[0.0, 40.0, 41.0, 42.0], 20.0, 0.0), [0.0, 21.0, 41.0, 61.0]);
        assert_eq!(spread(&[], 20.0, 0.0), [0.0; 0]);
    }
}
