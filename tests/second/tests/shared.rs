//! Netlists with shared gates: as the model has them, on good images and damaged ones; and small ones
//! held to the sums over all flip patterns, worked out term by term.

use second::answer::{Answer, Bench};
use second::arguments;
use second::exact::{Big, ExactSums, CHANCE_BITS};
use second::ffi;
use second::images::{chance, damage, good_draft, sharing_draft, Draft, Record, Size, NEVER};
use second::model::{live_count, Model, U};
use second::random::{seed, Random};
use second::shared::{self, Bent};

const MODEL: Model = Model::DOCUMENT;

fn by_model(image: &[u8], pattern: u32) -> Answer<u32> {
    shared::shared_reliability(&MODEL, image, pattern, Bent::default())
}

/// Few gates are shared in some, many in others; every answer is the model's.
#[test]
fn shared_gates_as_by_the_model() {
    let mut random = Random::new(seed() ^ 50);
    let mut seen = [0u64; 10];
    for _ in 0..6_000 {
        let size = Size {
            inputs: random.pick(&[0, 1, 2, 3, 6, 12]),
            gates: random.pick(&[1, 4, 10, 30]),
            outputs: random.pick(&[1, 4, 20]),
        };
        let rarely = random.pick(&[1, 3, 6, 12]);
        let image = sharing_draft(&mut random, size, rarely).bytes();
        let count = MODEL.shared_gates(&MODEL.netlist_with_sharing(&image).unwrap()).len();
        for pattern in [random.word(), random.word() % 4, u32::MAX] {
            assert_eq!(ffi::shared_reliability(&image, pattern), by_model(&image, pattern));
        }
        seen[count.min(9)] += 1;
    }
    println!("images by shared gates, the last with more than eight: {seen:?}");
    assert!(seen.iter().all(|times| *times >= 20));
}

/// Large netlists, up to eight shared gates.
#[test]
fn large_netlists_as_by_the_model() {
    let mut random = Random::new(seed() ^ 51);
    let mut most = 0;
    for _ in 0..40 {
        let size = Size { inputs: 12, gates: 1024, outputs: 64 };
        let rarely = random.pick(&[100, 300, 1000]);
        let image = sharing_draft(&mut random, size, rarely).bytes();
        let pattern = random.word();
        let answer = ffi::shared_reliability(&image, pattern);
        assert_eq!(answer, by_model(&image, pattern));
        if let Answer::Done(_) = answer {
            let netlist = MODEL.netlist_with_sharing(&image).unwrap();
            most = most.max(MODEL.shared_gates(&netlist).len());
        }
    }
    assert!(most >= 3, "at most {most} shared gates");
}

/// Images of every kind, among them damaged ones: 1 to 8 as opening gives them, never 9.
#[test]
fn any_image_as_by_the_model() {
    let mut random = Random::new(seed() ^ 52);
    let mut numbers = [0u64; 24];
    for _ in 0..20_000 {
        let size =
            Size { inputs: random.pick(&[0, 1, 3]), gates: random.pick(&[0, 3, 20]), outputs: 6 };
        let image = if random.once_in(4) {
            let mut draft = sharing_draft(&mut random, size, 3);
            let number = random.between(1, 8) as u8;
            damage(&mut random, &mut draft, number);
            draft.bytes()
        } else {
            arguments::image(&mut random, size)
        };
        let pattern = random.word();
        let answer = ffi::shared_reliability(&image, pattern);
        assert_eq!(answer, by_model(&image, pattern));
        numbers[answer.number()] += 1;
    }
    println!("answers by number: {numbers:?}");
    assert!((0..=8).all(|number| numbers[number] >= 20));
    assert_eq!(numbers[9], 0);
}

/// Within 1.5 units for each live gate and each set of suppositions of U × the exact sum.
#[test]
fn near_the_sum_over_all_flip_patterns() {
    let mut random = Random::new(seed() ^ 53);
    let (mut checked, mut widest, mut cut) = ([0u64; 9], 0u64, 0u64);
    for _ in 0..3_000 {
        let size =
            Size { inputs: random.pick(&[0, 1, 2]), gates: random.pick(&[4, 6, 8]), outputs: 6 };
        let rarely = random.pick(&[1, 1, 3]);
        let image = sharing_draft(&mut random, size, rarely).bytes();
        let netlist = MODEL.netlist_with_sharing(&image).unwrap();
        let count = MODEL.shared_gates(&netlist).len();
        let sums = ExactSums::new(&netlist);
        assert!(sums.terms_add_up());
        let one = Big::from_u64(1).shifted(CHANCE_BITS * netlist.gates.len() as u32);
        let halves = 3 * u64::from(live_count(&netlist)) << count;
        for pattern in 0..1 << netlist.inputs {
            let units = ffi::shared_reliability(&image, pattern).done();
            let have = one.times_u64(u64::from(units));
            let exact = sums.sum(&netlist, pattern).times_u64(U);
            let twice = exact.distance(&have).times_u64(2);
            assert!(twice.at_most(&one.times_u64(halves)), "{count} shared gates, {units} units");
            let bits = CHANCE_BITS * netlist.gates.len() as u32;
            widest = widest.max(twice.shifted_down(bits).to_u64().unwrap());
            cut += u64::from(shared::sum_of_sets(&MODEL, &netlist, pattern, Bent::default()) > U);
        }
        checked[count] += 1;
    }
    println!(
        "netlists by shared gates: {checked:?}; widest distance {widest} half units; cut {cut}"
    );
    assert!(checked[..5].iter().all(|times| *times >= 50));
}

/// Without shared gates the figure is the one that an opened area has after the toggles.
#[test]
fn none_shared_is_the_reliability() {
    let mut random = Random::new(seed() ^ 54);
    for _ in 0..1_000 {
        let size = Size { inputs: random.pick(&[0, 2, 5, 12]), gates: 40, outputs: 8 };
        let draft = good_draft(&mut random, size);
        let image = draft.bytes();
        let mut area = vec![0; draft.words()];
        ffi::open(&mut area, &image).done();
        let mut pattern = 0;
        for _ in 0..4 {
            let high = random.word() << 12;
            let units = ffi::Library.read_netlist(&area).done().units;
            assert_eq!(ffi::shared_reliability(&image, pattern), Answer::Done(units));
            let past = u32::from(draft.inputs) == 12;
            if past {
                assert_eq!(ffi::shared_reliability(&image, pattern | high), Answer::Done(units));
            }
            if draft.inputs > 0 {
                let input = random.below(u64::from(draft.inputs)) as u32;
                ffi::toggle_input(&mut area, input).done();
                pattern ^= 1 << input;
            }
        }
    }
}

/// So many buffers at 0.05 on input 0, two outputs each.
fn buffers(count: u16) -> Draft {
    let gate = Record::new(2, &[0], chance(0.05));
    let mut draft = Draft { inputs: 1, ..Draft::default() };
    for number in 0..count {
        draft.gates.push(gate.clone());
        draft.outputs.extend([1 + number; 2]);
    }
    draft
}

#[test]
fn eight_are_taken_and_nine_refused() {
    assert_eq!(ffi::shared_reliability(&buffers(8).bytes(), 1), Answer::Done(712_342_265));
    for count in [9, 10, 20] {
        let image = buffers(count).bytes();
        assert_eq!(ffi::shared_reliability(&image, 0), Answer::Refused { number: 23, place: 0 });
    }
    // A refusal of 1 to 8 comes before 23.
    let mut draft = buffers(9);
    draft.outputs[3] = 10;
    let refused = Answer::Refused { number: 8, place: 3 };
    assert_eq!(ffi::shared_reliability(&draft.bytes(), 0), refused);
}

/// Two halves that both round up: the sum is one unit above U, and becomes U.
#[test]
fn a_sum_above_one_becomes_one() {
    let gates = [
        (2, &[0][..], chance(3.0 / U as f64)),
        (2, &[0], chance(0.5)),
        (8, &[1, 2], NEVER),
        (0, &[3, 3], NEVER),
        (0, &[1], NEVER),
    ];
    let gates = gates.map(|(table, pins, flip)| Record::new(table, pins, flip)).to_vec();
    let image = Draft { inputs: 1, gates, outputs: vec![4, 5], ..Draft::default() }.bytes();
    let netlist = MODEL.netlist_with_sharing(&image).unwrap();
    assert_eq!(shared::sum_of_sets(&MODEL, &netlist, 0, Bent::default()), U + 1);
    assert_eq!(ffi::shared_reliability(&image, 0), Answer::Done(U as u32));
}

/// Known results: a buffer on two outputs, one gate on both pins of an AND, a diamond.
#[test]
fn known_results() {
    let half = Record::new(2, &[0], chance(0.5));
    let mut draft = Draft { inputs: 1, gates: vec![half], outputs: vec![1, 1], ..Draft::default() };
    assert_eq!(ffi::shared_reliability(&draft.bytes(), 0), Answer::Done(U as u32 / 2));
    draft.gates.push(Record::new(8, &[1, 1], chance(0.0)));
    draft.outputs = vec![2];
    assert_eq!(ffi::shared_reliability(&draft.bytes(), 1), Answer::Done(U as u32 / 2));
    draft.gates = [(2, &[0][..]), (1, &[1]), (2, &[1]), (8, &[2, 3])]
        .map(|(table, pins)| Record::new(table, pins, chance(0.05)))
        .to_vec();
    draft.outputs = vec![4];
    assert_eq!(ffi::shared_reliability(&draft.bytes(), 0), Answer::Done(974_152_271));
}
