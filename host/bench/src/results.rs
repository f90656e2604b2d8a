//! What each example recipe has to leave behind, worked out here without the machine.
use crate::engines::{self, End, ENGINES};
use crate::workloads::WORKLOADS;
use phuyurik::Stop;

const A0: usize = 10;
const A1: usize = 11;

/// The recipes' generator, from state 1.
fn generator() -> impl FnMut() -> u32 {
    let mut state = 1_u32;
    move || {
        state = state.wrapping_mul(1_664_525).wrapping_add(1_013_904_223);
        state
    }
}

/// The end of a workload, on which all three engines have to agree.
fn end(name: &str) -> End {
    let workload = WORKLOADS.iter().find(|w| w.name == name).expect("a name");
    let [a, b, c] = ENGINES.map(|engine| engines::run(engine, workload.image).0);
    assert_eq!(a, b);
    assert_eq!(a, c);
    assert_eq!(a.state.stop(), Ok(Stop::Ecall));
    a
}

#[test]
fn insertion_sort() {
    let mut random = generator();
    let mut sum = 0_u32;
    for _ in 0..500 {
        let mut words: Vec<i32> = (0..200).map(|_| random() as i32).collect();
        words.sort_unstable();
        for word in words {
            sum = sum.wrapping_mul(31).wrapping_add(word as u32);
        }
    }
    assert_eq!(end("insertion_sort").state.reg(A0), sum);
}

#[test]
fn insertion_sort_has_the_figure_word_for_word() {
    let figure = include_bytes!("../../../crates/list_files/data/sort");
    let image = WORKLOADS[0].image;
    assert!(image.windows(figure.len()).any(|part| part == figure));
}

/// With the polynomial the other way round than in the recipe.
#[test]
fn crc() {
    let mut random = generator();
    let buffer: Vec<u8> = (0..1024).map(|_| (random() >> 24) as u8).collect();
    let mut remainder = u32::MAX;
    for byte in buffer.repeat(500) {
        remainder ^= u32::from(byte.reverse_bits()) << 24;
        for _ in 0..8 {
            let carry = remainder >> 31;
            remainder = (remainder << 1) ^ (carry * 0x04C1_1DB7);
        }
    }
    assert_eq!(end("crc").state.reg(A0), !remainder.reverse_bits());
}

#[test]
fn average() {
    let mut random = generator();
    let mut reading = move || random() >> 20;
    let mut readings: Vec<u32> = (0..64).map(|_| reading()).collect();
    let mut total = 0_u32;
    for round in 0..40_000 {
        readings[round % 64] = reading();
        let mut sum = 0;
        for (n, reading) in (1..).zip(&readings) {
            sum += reading;
            let mean = (f64::from(sum) / f64::from(n)).round();
            total = total.wrapping_add(mean as u32);
        }
    }
    assert_eq!(end("average").state.reg(A0), total);
}

/// The sum of the four answers to one pair.
fn answers(a: u32, b: u32) -> u32 {
    let (signed_a, signed_b) = (i64::from(a as i32), i64::from(b as i32));
    [
        a.checked_div(b).unwrap_or(u32::MAX),
        a.checked_rem(b).unwrap_or(a),
        signed_a.checked_div(signed_b).unwrap_or(-1) as u32,
        signed_a.checked_rem(signed_b).unwrap_or(signed_a) as u32,
    ]
    .into_iter()
    .fold(0, u32::wrapping_add)
}

#[test]
fn divide() {
    let lowest = 1 << 31;
    let (mut y, mut sum) = (1_u32, 0_u32);
    for _ in 0..400_000 {
        let x = y.wrapping_mul(1_664_525).wrapping_add(sum);
        let pairs = [
            (x >> 14, y >> 26),
            (x, y >> 16),
            (y >> 16, x | lowest),
            ((x as i32 >> 8) as u32, (y as i32 >> 20) as u32),
            (0, x),
            (x, 0),
            (x, x),
            (lowest, u32::MAX),
        ];
        for (a, b) in pairs {
            sum = sum.wrapping_add(answers(a, b));
        }
        y = x;
    }
    assert_eq!(end("divide").state.reg(A0), sum);
}

#[test]
fn binary_search() {
    let mut random = generator();
    let (mut places, mut found) = (0_u32, 0_u32);
    for _ in 0..300_000 {
        let key = random() >> 21;
        if key % 2 == 1 && key < 2000 {
            places += key / 2;
            found += 1;
        }
    }
    let end = end("binary_search");
    assert_eq!((end.state.reg(A0), end.state.reg(A1)), (places, found));
}

type Matrix = [[u32; 3]; 3];

fn product(a: Matrix, b: Matrix) -> Matrix {
    let term = |i: usize, j: usize, k: usize| a[i][k].wrapping_mul(b[k][j]);
    let element = |i, j| (0..3).fold(0_u32, |sum, k| sum.wrapping_add(term(i, j, k)));
    [0, 1, 2].map(|i| [0, 1, 2].map(|j| element(i, j)))
}

#[test]
fn matrix() {
    let mut first = [[1, 2, 3], [4, 5, 6], [7, 8, 9]];
    let second = [[9, 8, 7], [-6, 5, 4], [3, -2, 1]].map(|row| row.map(|word: i32| word as u32));
    for _ in 0..80_000 {
        first = product(first, second);
    }
    let sum = first.concat().into_iter().fold(0, u32::wrapping_add);
    assert_eq!(end("matrix").state.reg(A0), sum);
}

/// Zero burns nothing: of the 64 words that are cleared only the two that are trimmed then are burnt.
#[test]
fn clear_trim() {
    let image = include_bytes!("../../../examples/clear_trim.bin");
    let mut row = vec![0; 512];
    row[24..32].copy_from_slice(&[37, 0, 0, 0, 1, 0, 0, 0]);
    row[320..328].copy_from_slice(&[250, 255, 255, 255, 1, 0, 0, 0]);
    for engine in ENGINES {
        let end = engines::run(engine, image).0;
        assert_eq!((end.state.stop_number(), end.retired), (1, 198));
        assert_eq!(end.row, row);
    }
}

/// The mean of the readings is 2100.4, so -52 counts and -17 steps of 3 are missing: 47 in six bits.
#[test]
fn voltage_trim() {
    let image = include_bytes!("../../../examples/voltage_trim.bin");
    for engine in ENGINES {
        let end = engines::run(engine, image).0;
        assert_eq!(
            (end.state.stop_number(), &end.row[..8]),
            (1, &[47, 1, 0, 0, 1, 0, 0, 0][..])
        );
        assert_eq!(end.row[8..], [0; 504]);
    }
}

/// A reading far from the others: the recipe stops with ebreak and burns nothing.
#[test]
fn voltage_trim_of_noisy_readings() {
    let mut image = *include_bytes!("../../../examples/voltage_trim.bin");
    let last = image.len() - 2;
    image[last..].copy_from_slice(&2400_u16.to_le_bytes());
    for engine in ENGINES {
        let end = engines::run(engine, &image).0;
        assert_eq!((end.state.stop_number(), end.row), (2, vec![0; 512]));
    }
}

#[test]
fn trim_is_the_papers_recipe() {
    let image = include_bytes!("../../../examples/trim.bin");
    let paper = [
        0x9D, 0x42, 0x37, 0x03, 0, 0x80, 0x23, 0x20, 0x53, 0, 0x73, 0, 0, 0,
    ];
    assert_eq!(image, &paper);
}

/// The listings are the proved listing's; the second emulator has its own.
#[test]
fn listings() {
    macro_rules! listed {
        ($($name:literal),*) => {
            [$((
                &include_bytes!(concat!("../../../examples/", $name, ".bin"))[..],
                include_str!(concat!("../../../examples/", $name, ".txt")),
            )),*]
        };
    }
    let listed = listed!(
        "trim",
        "clear_trim",
        "voltage_trim",
        "reference_trim",
        "oscillator_trim",
        "insertion_sort",
        "crc",
        "average",
        "divide",
        "binary_search",
        "matrix"
    );
    for (image, text) in listed {
        assert_eq!(second::listing(image), text);
    }
}
