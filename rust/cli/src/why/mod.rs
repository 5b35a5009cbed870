//! Why a sheet has no layout: a smallest set of sites without one, and what would help. Each claim is one call of the
//! proved maker.

pub mod remedies;

use crate::exit::Failure;
use crate::maker::Maker;
use model::sheet::Sheet;

/// The sheet with these of its sites alone, by their numbers; all else stays.
pub fn with_sites(sheet: &Sheet, sites: &[usize]) -> Sheet {
    let mut kept = sites.to_vec();
    kept.sort_unstable();
    Sheet { sites: kept.iter().map(|site| sheet.sites[*site]).collect(), ..sheet.clone() }
}

/// A smallest set of sites, by rising number, for which there is still no layout: leaving out any one of them gives a
/// layout. The sheet has no layout.
///
/// A layout stays lawful when sites are left out, so a set of sites with a layout has no part without one. Each round
/// finds the shortest list of candidates, by rising x, that has no layout beside the kept sites; its last site is then
/// needed.
pub fn smallest_set(sheet: &Sheet, maker: &mut Maker) -> Result<Vec<usize>, Failure> {
    let mut candidates = sheet.by_x();
    let mut kept: Vec<usize> = Vec::new();
    while maker.has_layout(&with_sites(sheet, &kept))? {
        let shortest = shortest_without_layout(sheet, &kept, &candidates, maker)?;
        kept.push(candidates[shortest - 1]);
        candidates.truncate(shortest - 1);
    }
    kept.sort_unstable();
    Ok(kept)
}

/// How many of the first candidates have, beside the kept sites, no layout: the least such number. The kept sites
/// alone have one, and with all candidates there is none.
fn shortest_without_layout(
    sheet: &Sheet,
    kept: &[usize],
    candidates: &[usize],
    maker: &mut Maker,
) -> Result<usize, Failure> {
    let mut has_layout = |count: usize| maker.has_layout(&with_sites(sheet, &[kept, &candidates[..count]].concat()));
    // Few sites first: the maker's work grows with them.
    let (mut with_layout, mut without) = (0, 1);
    while without < candidates.len() && has_layout(without)? {
        (with_layout, without) = (without, (2 * without).min(candidates.len()));
    }
    while without - with_layout > 1 {
        let middle = (with_layout + without) / 2;
        if has_layout(middle)? {
            with_layout = middle;
        } else {
            without = middle;
        }
    }
    Ok(without)
}

/// Asks the maker for every claim that makes a set smallest: the set has no layout, and without any one of its sites
/// it has one.
pub fn is_smallest(sheet: &Sheet, set: &[usize], maker: &mut Maker) -> Result<bool, Failure> {
    for left_out in set {
        let others: Vec<usize> = set.iter().copied().filter(|site| site != left_out).collect();
        if !maker.has_layout(&with_sites(sheet, &others))? {
            return Ok(false);
        }
    }
    Ok(!maker.has_layout(&with_sites(sheet, set))?)
}

#[cfg(test)]
mod tests;
