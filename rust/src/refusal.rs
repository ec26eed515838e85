use std::fmt;

/// Why a call did not do its work: one of docs/SCOPE.md's refusals, and where it applies.
#[derive(Clone, Copy, Debug, PartialEq, Eq)]
pub struct Refusal {
    pub number: u8,
    pub place: u32,
}

/// The sentence of each refusal, where the scripts have theirs from too.
const SENTENCES: &str = include_str!("refusals.txt");

impl Refusal {
    /// What is wrong, in a sentence.
    pub fn sentence(&self) -> String {
        let place = self.place.to_string();
        self.row().map_or("unknown to this package".into(), |(_, sentence)| {
            sentence.replace("{place}", &place)
        })
    }

    /// What the place is: a gate, an output, a line, a position in a list, or a number that was named. Nothing
    /// where it is always 0, and of refusal 12, whose place is a weight or 0.
    pub fn place_is(&self) -> Option<&'static str> {
        self.row().map(|(what, _)| what).filter(|what| !what.is_empty())
    }

    /// What the place is, and the sentence, of the first row that has this number, and this place or none.
    fn row(&self) -> Option<(&'static str, &'static str)> {
        let Refusal { number, place } = self;
        let wanted = [format!("{number},{place}"), number.to_string()];
        SENTENCES.lines().find_map(|line| {
            let (key, rest) = line.split_once('|')?;
            wanted.iter().any(|one| one == key).then(|| rest.split_once('|'))?
        })
    }
}

/// The line that `sheet` prints, and what it means.
impl fmt::Display for Refusal {
    fn fmt(&self, f: &mut fmt::Formatter<'_>) -> fmt::Result {
        let Refusal { number, place } = self;
        write!(f, "refused {number} {place}: {}", self.sentence())
    }
}

impl std::error::Error for Refusal {}

/// One of two images.
#[derive(Clone, Copy, Debug, PartialEq, Eq)]
pub enum Which {
    First,
    Second,
}

/// Why two images were not compared: a refusal of one of them.
#[derive(Clone, Copy, Debug, PartialEq, Eq)]
pub struct ImageRefusal {
    pub image: Which,
    pub refusal: Refusal,
}

impl fmt::Display for ImageRefusal {
    fn fmt(&self, f: &mut fmt::Formatter<'_>) -> fmt::Result {
        let which = match self.image {
            Which::First => "first",
            Which::Second => "second",
        };
        write!(f, "the {which} image: {}", self.refusal)
    }
}

impl std::error::Error for ImageRefusal {}
