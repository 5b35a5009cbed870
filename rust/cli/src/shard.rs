//! A share of a run: every N-th sheet, so that N runs on one or many machines do the whole.

use crate::arguments::{Arguments, Setting};
use crate::exit::Failure;

/// The option of the subcommands that can be shared out.
pub const SETTING: Setting =
    Setting { name: "--shard", value: "K/N", about: "only the K-th of N shares; K counts from 1" };

/// The share that a run does.
#[derive(Clone, Copy, Debug, PartialEq, Eq)]
pub struct Shard {
    /// Which share, from 1.
    pub this: u64,
    /// How many shares there are.
    pub of: u64,
}

impl Shard {
    /// The whole run.
    pub const WHOLE: Shard = Shard { this: 1, of: 1 };

    pub fn of(arguments: &Arguments) -> Result<Shard, Failure> {
        let Some(value) = arguments.value(SETTING.name) else { return Ok(Shard::WHOLE) };
        value.to_str().and_then(Shard::parse).ok_or_else(|| {
            let value = value.to_string_lossy();
            Failure::WrongUse(format!("option --shard: it takes K/N with K from 1 to N, not '{value}'"))
        })
    }

    fn parse(text: &str) -> Option<Shard> {
        let (this, of) = text.split_once('/')?;
        let number = |text: &str| text.bytes().all(|digit| digit.is_ascii_digit()).then(|| text.parse().ok()).flatten();
        let shard = Shard { this: number(this)?, of: number(of)? };
        (1..=shard.of).contains(&shard.this).then_some(shard)
    }

    /// Whether the sheet of this place, counted from 0, belongs to the share.
    pub fn has(self, place: u64) -> bool {
        place % self.of == self.this - 1
    }

    /// Those of a list that belong to the share.
    pub fn part<T>(self, list: Vec<T>) -> Vec<T> {
        list.into_iter().enumerate().filter(|(place, _)| self.has(*place as u64)).map(|(_, item)| item).collect()
    }

    /// How many of so many sheets belong to the share.
    pub fn part_of(self, total: u64) -> u64 {
        total / self.of + u64::from(total % self.of >= self.this)
    }
}

#[cfg(test)]
mod tests {
    use super::*;

    #[test]
    fn shards_are_numbers_with_a_stroke_between() {
        assert_eq!(Shard::parse("2/3"), Some(Shard { this: 2, of: 3 }));
        for wrong in ["", "2", "/3", "2/", "0/3", "4/3", "+1/3", "1/2/3", "a/b", "1/0"] {
            assert_eq!(Shard::parse(wrong), None, "{wrong}");
        }
    }

    #[test]
    fn every_sheet_belongs_to_one_shard() {
        for (total, of) in [(0, 3), (1, 3), (7, 3), (9, 3), (5, 1), (2, 4)] {
            let shards: Vec<Shard> = (1..=of).map(|this| Shard { this, of }).collect();
            for place in 0..total {
                assert_eq!(shards.iter().filter(|shard| shard.has(place)).count(), 1);
            }
            for shard in shards {
                let own = (0..total).filter(|place| shard.has(*place)).count() as u64;
                assert_eq!(shard.part_of(total), own, "{shard:?} of {total}");
            }
        }
    }
}
