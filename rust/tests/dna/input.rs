//! The benchmark's input: three sequences in the form FASTA, from a generator of its own.

use std::fmt::Write;

const ALU: &str = "GGCCGGGCGCGGTGGCTCACGCCTGTAATCCCAGCACTTTGGGAGGCCGAGGCGGGCGGATCACCTGAGG\
TCAGGAGTTCGAGACCAGCCTGGCCAACATGGTGAAACCCCGTCTCTACTAAAAATACAAAAATTAGCCGGGCGTGGTGGCGCGCGCCTGTAATC\
CCAGCTACTCGGGAGGCTGAGGCAGGAGAATCGCTTGAACCCGGGAGGCGGAGGTTGCAGTGAGCCGAGATCGCGCCACTGCACTCCAGCCTGGG\
CGACAGAGCGAGACTCCGTCTCAAAAA";

/// Each code with its probability.
const AMBIGUOUS: [(char, f64); 15] = [
    ('a', 0.27),
    ('c', 0.12),
    ('g', 0.12),
    ('t', 0.27),
    ('B', 0.02),
    ('D', 0.02),
    ('H', 0.02),
    ('K', 0.02),
    ('M', 0.02),
    ('N', 0.02),
    ('R', 0.02),
    ('S', 0.02),
    ('V', 0.02),
    ('W', 0.02),
    ('Y', 0.02),
];

const HUMAN: [(char, f64); 4] = [
    ('a', 0.302_954_942_668_0),
    ('c', 0.197_988_300_492_1),
    ('g', 0.197_547_306_639_1),
    ('t', 0.301_509_450_200_8),
];

/// The generator of the benchmark, between 0 and 1.
struct Random(u32);

impl Random {
    fn next(&mut self) -> f64 {
        self.0 = (self.0 * 3877 + 29573) % 139_968;
        f64::from(self.0) / 139_968.0
    }

    fn code(&mut self, codes: &[(char, f64)]) -> char {
        let mut left = self.next();
        let code = codes.iter().find(|(_, share)| {
            left -= share;
            left < 0.0
        });
        code.or(codes.last()).expect("there are codes").0
    }

    fn sequence(&mut self, codes: &[(char, f64)], len: usize) -> String {
        (0..len).map(|_| self.code(codes)).collect()
    }
}

/// Returns the input for 10,000.
pub fn input() -> String {
    let mut random = Random(42);
    let repeated: String = ALU.chars().cycle().take(20_000).collect();
    let ambiguous = random.sequence(&AMBIGUOUS, 30_000);
    let human = random.sequence(&HUMAN, 50_000);
    let mut text = String::new();
    for (head, sequence) in [
        ("ONE Homo sapiens alu", repeated),
        ("TWO IUB ambiguity codes", ambiguous),
        ("THREE Homo sapiens frequency", human),
    ] {
        writeln!(text, ">{head}").expect("a text takes all");
        for line in sequence.as_bytes().chunks(60) {
            text.push_str(std::str::from_utf8(line).expect("letters"));
            text.push('\n');
        }
    }
    text
}
