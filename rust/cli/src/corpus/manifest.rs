//! The manifest of a corpus: one line a sheet, its fields parted by tabs.

use super::{Entry, Rival};
use backbone::Layout;

/// The names of the fields. A field that is not known is `-`; lengths are in units, sums in tenths.
pub const HEADER: &str = "file\tdepth\taim\tlabels\tlength\tslots_by_site\tequals\tsecond_labels\tsecond_length\t\
                          rounding\trounded_labels\trounded_length\tsum_of_rounded\tsum_of_best\n";

/// The line of a sheet.
pub fn line(file: &str, entry: &Entry) -> String {
    let aim = if entry.sheet.shortest { "shortest" } else { "fewest" };
    let Layout { labels, length, .. } = entry.best;
    let fields = [
        file.to_string(),
        entry.depth.to_string(),
        aim.to_string(),
        labels.to_string(),
        length.to_string(),
        slots(&entry.best),
    ];
    let line: Vec<String> = fields.into_iter().chain(searched(entry)).chain(rounded(&entry.rival)).collect();
    line.join("\t") + "\n"
}

/// Each site's slot, in sheet order.
fn slots(layout: &Layout) -> String {
    layout.slots.iter().map(u8::to_string).collect::<Vec<_>>().join(",")
}

fn unknown() -> String {
    "-".to_string()
}

/// How many layouts are equals of the best, and the numbers that come next.
fn searched(entry: &Entry) -> [String; 3] {
    let equals = entry.ranked.as_ref().map_or_else(unknown, |ranked| ranked.equals.to_string());
    match entry.ranked.as_ref().and_then(|ranked| ranked.second) {
        Some((labels, length)) => [equals, labels.to_string(), length.to_string()],
        None => [equals, unknown(), unknown()],
    }
}

fn rounded(rival: &Option<Rival>) -> [String; 5] {
    match rival {
        None => std::array::from_fn(|_| unknown()),
        Some(rival) => [
            rival.rounding.name().to_string(),
            rival.layout.labels.to_string(),
            rival.layout.length.to_string(),
            rival.own_sum.to_string(),
            rival.sum_of_best.to_string(),
        ],
    }
}
