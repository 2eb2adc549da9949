//! Inputs, from a generator with a fixed seed.

/// Pseudo-random numbers: xorshift64*, the same at each run.
pub struct Generator(u64);

impl Generator {
    pub fn new() -> Self {
        Generator(0x9E37_79B9_7F4A_7C15)
    }

    fn next(&mut self) -> u64 {
        self.0 ^= self.0 >> 12;
        self.0 ^= self.0 << 25;
        self.0 ^= self.0 >> 27;
        self.0.wrapping_mul(0x2545_F491_4F6C_DD1D)
    }

    /// A number below a limit.
    fn below(&mut self, limit: usize) -> usize {
        ((u128::from(self.next()) * limit as u128) >> 64) as usize
    }

    /// Small letters.
    pub fn letters(&mut self, count: usize) -> String {
        (0..count)
            .map(|_| char::from(b'a' + self.below(26) as u8))
            .collect()
    }

    /// The items in any order.
    fn shuffle<T>(&mut self, items: &mut [T]) {
        for at in (1..items.len()).rev() {
            items.swap(at, self.below(at + 1));
        }
    }
}

/// The numbers of pairs for which `bench/plot` shows the time of a read into a map.
pub const COUNTS: [usize; 6] = [1, 10, 100, 1_000, 10_000, 100_000];

/// How the keys of an input follow one another.
#[derive(Clone, Copy, PartialEq, Eq)]
pub enum Order {
    InOrder,
    Shuffled,
    Reversed,
    /// Blocks of 64 that are in order, and are shuffled.
    Blocks,
}

impl Order {
    pub const ALL: [Order; 4] = [
        Order::InOrder,
        Order::Shuffled,
        Order::Reversed,
        Order::Blocks,
    ];

    pub fn name(self) -> &'static str {
        match self {
            Order::InOrder => "in order",
            Order::Shuffled => "shuffled",
            Order::Reversed => "reversed",
            Order::Blocks => "in shuffled blocks",
        }
    }
}

/// Pairs, each with a key of `before`, six digits and `after`, and a value of eight letters.
pub fn pairs(count: usize, order: Order, before: &str, after: &str) -> String {
    let mut generator = Generator::new();
    let mut places: Vec<usize> = (0..count).collect();
    match order {
        Order::InOrder => {}
        Order::Shuffled => generator.shuffle(&mut places),
        Order::Reversed => places.reverse(),
        Order::Blocks => {
            let mut blocks: Vec<Vec<usize>> = places.chunks(64).map(<[usize]>::to_vec).collect();
            generator.shuffle(&mut blocks);
            places = blocks.concat();
        }
    }
    let pairs: Vec<String> = places
        .iter()
        .map(|place| format!("{before}{place:06}{after}={}", generator.letters(8)))
        .collect();
    pairs.join("&")
}

/// Pairs with these keys, by their places, and values of eight letters.
pub fn keyed(count: usize, key: impl Fn(usize) -> String) -> String {
    let mut generator = Generator::new();
    let pairs: Vec<String> = (0..count)
        .map(|place| format!("{}={}", key(place), generator.letters(8)))
        .collect();
    pairs.join("&")
}

/// Words of one to eight letters, with a space between them, cut at so many bytes. It ends with a letter.
pub fn words(len: usize) -> String {
    let mut generator = Generator::new();
    let mut text = String::new();
    while text.len() < len {
        let letters = 1 + generator.below(8);
        text.push_str(&generator.letters(letters));
        text.push(' ');
    }
    text.truncate(len - 1);
    text.push('a');
    text
}

/// Letters as percent escapes, as many as a text of so many bytes holds.
pub fn escapes(len: usize) -> String {
    let letters = Generator::new().letters(len / 3);
    letters.bytes().map(|byte| format!("%{byte:02X}")).collect()
}

/// The text of fields whose names and texts have their numbers.
pub fn fields(before: &str, after: &str, count: usize) -> String {
    let fields: Vec<String> = (0..count)
        .map(|number| format!("{before}key{number}{after}=value+{number}"))
        .collect();
    fields.join("&")
}
