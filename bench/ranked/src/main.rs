//! The work of `zq_bench ranked`, draw for draw, over a `BTreeSet` of Rust's library: it writes the same checksums
//! to standard output, and nanoseconds a step to standard error. A set knows no places: what hangs on them is found in
//! a sorted list and not timed, and the ten pairs that are timed begin at a drawn pair.
use std::collections::BTreeSet;
use std::env;
use std::time::{Duration, Instant};

type Pairs = BTreeSet<(i128, Vec<u8>)>;

/// The words of PCG64 (XSL RR 128/64), as `rand_pcg` makes them from a state and a stream.
struct Draws {
    state: u128,
    increment: u128,
}

impl Draws {
    fn new(state: u128, stream: u128) -> Self {
        let increment = stream << 1 | 1;
        let mut draws = Draws {
            state: state.wrapping_add(increment),
            increment,
        };
        draws.step();
        draws
    }

    fn step(&mut self) {
        self.state = self
            .state
            .wrapping_mul(0x2360_ED05_1FC6_5DA4_4385_DF64_9FCC_F645)
            .wrapping_add(self.increment);
    }

    fn next_u32(&mut self) -> u32 {
        self.step();
        let folded = (self.state >> 64) as u64 ^ self.state as u64;
        folded.rotate_right((self.state >> 122) as u32) as u32
    }

    fn below(&mut self, limit: u32) -> u32 {
        self.next_u32() % limit.max(1)
    }
}

const LENGTH: usize = 15;

/// `member:` and the last eight decimal digits of a number.
fn member_of(number: u32) -> [u8; LENGTH] {
    let mut text = *b"member:00000000";
    let mut rest = number;
    for place in (7..LENGTH).rev() {
        text[place] = b'0' + (rest % 10) as u8;
        rest /= 10;
    }
    text
}

fn pair(score: i128, number: u32) -> (i128, Vec<u8>) {
    (score, member_of(number).to_vec())
}

/// A checksum of one more pair: FNV-1a over the member's bytes, from the checksum so far and the score.
fn folded(checksum: u64, score: i128, member: &[u8]) -> u64 {
    let mut folded = checksum ^ u64::try_from(score).unwrap_or(u64::MAX);
    for byte in member {
        folded = (folded ^ u64::from(*byte)).wrapping_mul(0x100_0000_01b3);
    }
    folded
}

/// The checksums of drawn ranks, and of ten scores from drawn places, of a plain list.
fn by_places(set: &Pairs, scores: &[i128], draws: &mut Draws, steps: u32) -> (usize, i128) {
    let order: Vec<_> = set.iter().collect();
    let mut ranks = 0;
    for _ in 0..steps {
        let number = draws.below(order.len() as u32);
        let sought = pair(scores[number as usize], number);
        ranks += order.partition_point(|&other| *other < sought);
    }
    let mut tens = 0;
    for _ in 0..steps {
        let place = draws.below(order.len() as u32) as usize;
        tens += order[place..].iter().take(10).map(|other| other.0).sum::<i128>();
    }
    (ranks, tens)
}

fn tell(kind: &str, steps: u32, time: Duration) {
    eprintln!("set {kind} {}", time.as_nanos() / u128::from(steps.max(1)));
}

fn main() {
    let numbers: Vec<u32> = env::args().skip(1).flat_map(|word| word.parse()).collect();
    let [steps, pairs] = numbers[..] else {
        return;
    };
    let mut draws = Draws::new(1, 1);
    let mut scores: Vec<i128> = (0..pairs).map(|_| i128::from(draws.next_u32())).collect();
    let mut set = Pairs::new();
    let began = Instant::now();
    for (number, score) in scores.iter().enumerate() {
        set.insert(pair(*score, number as u32));
    }
    tell("insert", pairs, began.elapsed());
    let (ranks, tens) = by_places(&set, &scores, &mut draws, steps);
    let mut others = Draws::new(2, 1);
    let mut sum = 0;
    let began = Instant::now();
    for _ in 0..steps {
        let number = others.below(pairs);
        for (score, _) in set.range(pair(scores[number as usize], number)..).take(10) {
            sum += score;
        }
    }
    tell("ten", steps, began.elapsed());
    let began = Instant::now();
    for _ in 0..steps {
        let number = draws.below(pairs);
        let score = i128::from(draws.next_u32());
        let mut entry = pair(scores[number as usize], number);
        set.remove(&entry);
        entry.0 = score;
        set.insert(entry);
        scores[number as usize] = score;
    }
    tell("change", steps, began.elapsed());
    let began = Instant::now();
    for number in 0..pairs / 2 {
        set.remove(&pair(scores[number as usize], number));
    }
    tell("remove", pairs / 2, began.elapsed());
    let left = pairs - pairs / 2;
    let mut popped = 0;
    let began = Instant::now();
    while let Some((score, member)) = set.pop_first() {
        popped = folded(popped, score, &member);
    }
    tell("pop", left, began.elapsed());
    println!("ranks {ranks} tens {tens} popped {popped:016x}");
    std::hint::black_box(sum);
}
