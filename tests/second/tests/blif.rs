//! Reading BLIF: the library beside this package's own reader on random texts, good and damaged.

use second::blif::{self, Model};
use second::blif_texts::{
    damage_bytes, damage_statements, good_statements, text_of, Layout, TextSize, FULL, TINY, USUAL,
};
use second::compare::compare_blif;
use second::ffi;
use second::random::{seed, Random};

/// How often each answer came: accepted (and the image opened), 18, each test of 19, 20.
#[derive(Default, Debug)]
struct Answers {
    accepted: u64,
    opened: u64,
    lines: u64,
    tests: [u64; 4],
    short: u64,
}

impl Answers {
    fn compare(&mut self, random: &mut Random, text: &[u8]) {
        // Room for the image, often to the byte; now and then one byte less, or far less.
        let needed = blif::image(text).map_or(random.index(60), |image| image.len());
        let room = match random.below(8) {
            0 => needed.saturating_sub(1),
            1 => random.index(needed + 1),
            2..=4 => needed,
            _ => needed + random.index(50),
        };
        let slice: Vec<u8> = (0..room).map(|_| random.bits() as u8).collect();
        let (answer, left) = compare_blif(text, &slice);
        match answer.number() {
            0 => {
                // Only a shared gate may keep a written image from being opened.
                let opened = ffi::open(&mut vec![0; 8264], &left[..answer.done() as usize]);
                assert!([0, 9].contains(&opened.number()), "{opened:?}");
                self.accepted += 1;
                self.opened += u64::from(opened.number() == 0);
            }
            18 => self.lines += 1,
            19 => {
                let model = Model::of(text).unwrap_or_else(|place| panic!("18 {place}"));
                self.tests[model.failed_test().expect("19 was given").0] += 1;
            }
            20 => self.short += 1,
            number => panic!("refusal {number}"),
        }
    }
}

fn some_layout(random: &mut Random) -> Layout {
    random.pick(&[Layout::Plain, Layout::Free])
}

/// Compares `count` texts made with `make`.
fn run(seed: u64, count: u64, make: impl Fn(&mut Random) -> Vec<u8>) -> Answers {
    let mut random = Random::new(seed);
    let mut answers = Answers::default();
    for _ in 0..count {
        let text = make(&mut random);
        answers.compare(&mut random, &text);
    }
    println!("{count} texts: {answers:?}");
    answers
}

fn good_text(random: &mut Random, size: TextSize) -> Vec<u8> {
    let statements = good_statements(random, size);
    let layout = some_layout(random);
    text_of(random, layout, &statements)
}

#[test]
fn good_texts() {
    for (at, size, count) in [(30, TINY, 15_000), (31, USUAL, 10_000)] {
        let answers = run(seed() ^ at, count, |random| good_text(random, size));
        assert!(answers.accepted > count / 2 && answers.short > count / 20);
        assert_eq!((answers.lines, answers.tests), (0, [0; 4]));
    }
}

/// The outputs' values under a pattern, from an image without a heading.
fn outputs_of(image: &[u8], pattern: u32) -> Vec<bool> {
    let word = |at: usize| usize::from(u16::from_le_bytes([image[at], image[at + 1]]));
    let trailer = image.len() - 16;
    let (inputs, gates, outputs) = (word(trailer), word(trailer + 2), word(trailer + 4));
    let mut values: Vec<bool> = (0..inputs).map(|at| pattern >> at & 1 == 1).collect();
    for record in (0..gates).map(|gate| 20 * gate) {
        let pins = (0..usize::from(image[record])).map(|pin| word(record + 4 + 2 * pin));
        let row: usize = pins.enumerate().map(|(pin, from)| usize::from(values[from]) << pin).sum();
        values.push(word(record + 2) >> row & 1 == 1);
    }
    (0..outputs).map(|output| values[word(20 * gates + 2 * output)]).collect()
}

#[test]
fn images_mean_what_the_covers_say() {
    let mut random = Random::new(seed() ^ 37);
    let mut ones = [0u64; 2];
    for round in 0..6_000 {
        let size = if round % 3 == 0 { USUAL } else { TINY };
        let text = good_text(&mut random, size);
        let mut slice = [0xA5; 2_000];
        let length = ffi::read_blif(&text, &mut slice).done() as usize;
        let model = Model::of(&text).unwrap_or_else(|place| panic!("18 {place}"));
        for _ in 0..8 {
            let pattern = random.below(1 << 12) as u32;
            let values = model.outputs_under(pattern);
            assert_eq!(outputs_of(&slice[..length], pattern), values, "pattern {pattern}");
            values.iter().for_each(|value| ones[usize::from(*value)] += 1);
        }
    }
    println!("values of outputs: {} zeros, {} ones", ones[0], ones[1]);
    assert!(ones.iter().all(|count| *count > 20_000));
}

#[test]
fn large_texts() {
    let answers = run(seed() ^ 32, 150, |random| good_text(random, FULL));
    assert!(answers.accepted > 50 && answers.tests == [0; 4], "{answers:?}");
}

fn damaged_statements(random: &mut Random, size: TextSize) -> Vec<u8> {
    let mut statements = good_statements(random, size);
    for _ in 0..random.pick(&[1, 1, 2, 3]) {
        damage_statements(random, &mut statements);
    }
    let layout = some_layout(random);
    text_of(random, layout, &statements)
}

#[test]
fn damaged_small_texts() {
    let answers = run(seed() ^ 33, 40_000, |random| damaged_statements(random, TINY));
    assert!(answers.lines > 1_000 && answers.tests.iter().all(|count| *count > 300), "{answers:?}");
}

#[test]
fn damaged_usual_texts() {
    let answers = run(seed() ^ 34, 20_000, |random| damaged_statements(random, USUAL));
    assert!(answers.lines > 1_000 && answers.tests.iter().all(|count| *count > 300), "{answers:?}");
}

#[test]
fn changed_bytes() {
    let answers = run(seed() ^ 35, 40_000, |random| {
        let size = random.pick(&[TINY, TINY, USUAL]);
        let mut text = good_text(random, size);
        damage_bytes(random, &mut text);
        text
    });
    assert!(answers.lines > 1_000 && answers.accepted > 1_000, "{answers:?}");
}

/// Texts of a few pieces, so that blanks, comments and joined lines meet in every way.
#[test]
fn loose_pieces() {
    let pieces = [
        " ",
        "\n",
        "\n",
        "\n",
        "\\\n",
        "\\\n",
        "#",
        "#\\\n",
        "\r",
        "\t",
        "\\",
        "a",
        "\n.names a b c\n",
        "\n.names b\\\nd",
        "\n.names e f\n",
        "\n.names f",
        "\n11 1",
        "\n1- 1\n",
        "\n1",
        " 1\n",
        " 0\n",
        "\n.end\n",
    ];
    let heads = [".model m\n.inputs a b\n.outputs a\n", ".model m\n.inputs a\n.outputs b\n", ""];
    let ends = ["\n.end\n", ".end", "\n.end", ""];
    let answers = run(seed() ^ 36, 30_000, |random| {
        let mut text = random.pick(&heads).to_string();
        (0..random.index(10)).for_each(|_| text += random.pick(&pieces));
        text += random.pick(&ends);
        text.into_bytes()
    });
    assert!(answers.lines > 1_000 && answers.accepted > 300, "{answers:?}");
}
