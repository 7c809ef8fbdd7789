//! Pseudo-random numbers, the same ones for the same seed everywhere.

/// What seed and stream are multiplied by, so that near ones drift apart.
const SEED_FACTOR: u64 = 0x9E37_79B9_7F4A_7C15;
const STREAM_FACTOR: u64 = 0xBF58_476D_1CE4_E5B9;
/// The state of a generator whose seed comes to zero, where it would stay.
const NEVER_ZERO: u64 = 0x94D0_49BB_1331_11EB;
/// The shifts of xorshift over 64 bits.
const SHIFT_A: u32 = 13;
const SHIFT_B: u32 = 7;
const SHIFT_C: u32 = 17;
/// Numbers drawn away at the start, while they still resemble the seed.
const WARM_UP: usize = 8;
/// The low bits are the weakest and stay out of small numbers.
const WEAK_BITS: u32 = 11;

/// Xorshift over 64 bits.
#[derive(Clone, Debug)]
pub struct Random(u64);

impl Random {
    /// The numbers of one stream of a seed; each stream is independent.
    pub fn new(seed: u64, stream: u64) -> Random {
        let seeded = seed.wrapping_add(1).wrapping_mul(SEED_FACTOR);
        let streamed = stream.wrapping_add(1).wrapping_mul(STREAM_FACTOR);
        let state = match seeded ^ streamed.rotate_left(u32::BITS) {
            0 => NEVER_ZERO,
            state => state,
        };
        let mut random = Random(state);
        for _ in 0..WARM_UP {
            random.draw();
        }
        random
    }

    /// Any number.
    pub fn draw(&mut self) -> u64 {
        self.0 ^= self.0 << SHIFT_A;
        self.0 ^= self.0 >> SHIFT_B;
        self.0 ^= self.0 << SHIFT_C;
        self.0
    }

    /// A number below the limit, which isn't zero.
    pub fn below(&mut self, limit: usize) -> usize {
        ((self.draw() >> WEAK_BITS) % limit as u64) as usize
    }

    /// True once in so many times.
    pub fn once_in(&mut self, times: usize) -> bool {
        self.below(times) == 0
    }

    /// One of the choices, of which there is at least one.
    pub fn one_of<T: Copy>(&mut self, choices: &[T]) -> T {
        choices[self.below(choices.len())]
    }

    /// One of the choices, each as often as its weight says.
    pub fn weighted<T: Copy>(&mut self, choices: &[(T, usize)]) -> T {
        let total = choices.iter().map(|(_, weight)| weight).sum();
        let mut left = self.below(total);
        for (choice, weight) in choices {
            if left < *weight {
                return *choice;
            }
            left -= weight;
        }
        choices[0].0
    }

    /// Any bytes.
    pub fn bytes<const LENGTH: usize>(&mut self) -> [u8; LENGTH] {
        let mut bytes = [0; LENGTH];
        for part in bytes.chunks_mut(size_of::<u64>()) {
            part.copy_from_slice(&self.draw().to_le_bytes()[..part.len()]);
        }
        bytes
    }
}
