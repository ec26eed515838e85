/// How a gate flips. The bench refuses a chance above 0.5, before rounding; others are rounded once, to
/// the nearest unit, and a half to the even unit.
#[derive(Clone, Copy, Debug, PartialEq)]
pub enum Flip {
    /// It never flips.
    Never,
    /// It flips with this chance, from 0 to 0.5.
    Chance(f64),
    /// It flips with the exact product of both numbers, each from 0 to 1 and the product at most 0.5.
    Strike { chance: f32, window: f32 },
    /// The kind and the eight bytes of a gate record as they stand, to be judged by the bench.
    Raw { kind: u8, field: [u8; 8] },
}

impl Flip {
    /// The kind that stands in a gate record.
    pub fn kind(self) -> u8 {
        match self {
            Flip::Never => 0,
            Flip::Chance(_) => 1,
            Flip::Strike { .. } => 2,
            Flip::Raw { kind, .. } => kind,
        }
    }

    /// The eight bytes that stand in a gate record.
    pub fn field(self) -> [u8; 8] {
        match self {
            Flip::Never => [0; 8],
            Flip::Chance(chance) => chance.to_le_bytes(),
            Flip::Strike { chance, window } => {
                let [strike, open] = [chance, window].map(|number| u64::from(number.to_bits()));
                (strike | open << 32).to_le_bytes()
            }
            Flip::Raw { field, .. } => field,
        }
    }
}
