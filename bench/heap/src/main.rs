//! The work of `zq_bench heap`, draw for draw, over the pair of a sorted set and a hash map of Rust's library: it
//! writes the same checksum to standard output, and its own steps a second to standard error.
use std::collections::{BTreeSet, HashMap};
use std::env;
use std::time::{Duration, Instant};

/// What a `PosHeap` is, of two collections: the set finds the first pair, and the map a member's score.
#[derive(Default)]
struct Pair {
    order: BTreeSet<(i128, Vec<u8>)>,
    scores: HashMap<Vec<u8>, i128>,
}

impl Pair {
    fn set(&mut self, member: &[u8], score: i128) {
        match self.scores.get_mut(member) {
            Some(known) => {
                let mut entry = (*known, member.to_vec());
                *known = score;
                self.order.remove(&entry);
                entry.0 = score;
                self.order.insert(entry);
            }
            None => {
                self.scores.insert(member.to_vec(), score);
                self.order.insert((score, member.to_vec()));
            }
        }
    }

    fn top(&self) -> Option<(i128, &[u8])> {
        let (score, member) = self.order.first()?;
        Some((*score, member))
    }

    fn remove(&mut self, member: &[u8]) -> Option<i128> {
        let (member, score) = self.scores.remove_entry(member)?;
        self.order.remove(&(score, member));
        Some(score)
    }
}

/// The words of PCG64 (XSL RR 128/64), as `rand_pcg` makes them from a state and a stream.
struct Draws {
    state: u128,
    increment: u128,
}

impl Draws {
    fn new(state: u128, stream: u128) -> Self {
        let increment = stream << 1 | 1;
        let mut draws = Draws {
            state: state.wrapping_add(increment),
            increment,
        };
        draws.step();
        draws
    }

    fn step(&mut self) {
        self.state = self
            .state
            .wrapping_mul(0x2360_ED05_1FC6_5DA4_4385_DF64_9FCC_F645)
            .wrapping_add(self.increment);
    }

    fn next_u32(&mut self) -> u32 {
        self.step();
        let folded = (self.state >> 64) as u64 ^ self.state as u64;
        folded.rotate_right((self.state >> 122) as u32) as u32
    }
}

const LENGTH: usize = 15;

/// `member:` and the last eight decimal digits of a number.
fn member_of(number: u32) -> [u8; LENGTH] {
    let mut text = *b"member:00000000";
    let mut rest = number;
    for place in (7..LENGTH).rev() {
        text[place] = b'0' + (rest % 10) as u8;
        rest /= 10;
    }
    text
}

/// A checksum of one more pair: FNV-1a over the member's bytes, from the checksum so far and the score.
fn folded(checksum: u64, score: i128, member: &[u8]) -> u64 {
    let mut folded = checksum ^ u64::try_from(score).unwrap_or(u64::MAX);
    for byte in member {
        folded = (folded ^ u64::from(*byte)).wrapping_mul(0x100_0000_01b3);
    }
    folded
}

/// Gives drawn members drawn scores.
fn set_drawn(pair: &mut Pair, draws: &mut Draws, steps: u32, members: u32) {
    for _ in 0..steps {
        let member = member_of(draws.next_u32() % members.max(1));
        pair.set(&member, i128::from(draws.next_u32()));
    }
}

/// Takes the first out and puts it back with a later score, and answers a checksum of what was taken.
fn take_and_put_back(pair: &mut Pair, draws: &mut Draws, steps: u32) -> u64 {
    let mut checksum = 0;
    for _ in 0..steps {
        let Some((score, first)) = pair.top() else {
            return checksum;
        };
        let Ok(member) = <[u8; LENGTH]>::try_from(first) else {
            return checksum;
        };
        checksum = folded(checksum, score, &member);
        pair.remove(&member);
        pair.set(&member, score + i128::from(draws.next_u32()));
    }
    checksum
}

/// How many a second.
fn rate(steps: u32, time: Duration) -> u128 {
    u128::from(steps) * 1_000_000 / time.as_micros().max(1)
}

fn main() {
    let numbers: Vec<u32> = env::args().flat_map(|word| word.parse()).collect();
    let [steps, members] = numbers[..] else {
        return;
    };
    let mut draws = Draws::new(1, 1);
    let mut pair = Pair::default();
    let began = Instant::now();
    set_drawn(&mut pair, &mut draws, steps, members);
    let sets = began.elapsed();
    let began = Instant::now();
    let checksum = take_and_put_back(&mut pair, &mut draws, steps);
    let takes = began.elapsed();
    println!("checksum {checksum:016x}, {} members", pair.scores.len());
    eprintln!("set {}", rate(steps, sets));
    eprintln!("take {}", rate(steps, takes));
}
