//! Which of several programs has a queue.

use hobbychair_sqs::texts::QueueName;

/// The most programs that can share the queues.
const MOST: u32 = 16;

/// How many programs share the queues. A queue belongs to the one whose place, from 0, is the CRC-32 of its name modulo this
/// number, by zlib.
#[derive(Clone, Copy, Debug, PartialEq, Eq)]
pub struct Shards(u32);

impl Shards {
    /// One program has all queues.
    pub const ONE: Shards = Shards(1);

    /// 1 to 16 programs; none for another number.
    pub fn new(count: u32) -> Option<Shards> {
        (1..=MOST).contains(&count).then_some(Shards(count))
    }

    /// How many there are.
    pub fn count(self) -> u32 {
        self.0
    }

    /// The shards by their places.
    pub fn all(self) -> impl Iterator<Item = Shard> {
        (0..self.0).map(move |place| Shard { shards: self, place })
    }

    /// The place of the program that has what goes by this number: parts, a book, and the name of a queue in the store.
    pub fn place_of_number(self, number: u64) -> usize {
        (number % u64::from(self.0)) as usize
    }

    /// The next number of the program at this place.
    pub fn number_above(self, last: u64, place: usize) -> u64 {
        let count = u64::from(self.0);
        (last / count + 1) * count + place as u64
    }

    /// The place of the program that has the queue of this name.
    pub fn place_of(self, name: &QueueName) -> usize {
        (crc32fast::hash(name.as_str().as_bytes()) % self.0) as usize
    }
}

/// One of the programs that share the queues.
#[derive(Clone, Copy, Debug, PartialEq, Eq)]
pub struct Shard {
    shards: Shards,
    place: u32,
}

impl Shard {
    /// That of a program which has all queues.
    pub const ONLY: Shard = Shard { shards: Shards::ONE, place: 0 };

    /// Whether it has the queue of this name.
    pub fn has(self, name: &QueueName) -> bool {
        self.shards.place_of(name) == self.place as usize
    }

    /// Its place among all, from 0.
    pub fn place(self) -> usize {
        self.place as usize
    }

    /// How many share the queues.
    pub fn count(self) -> u32 {
        self.shards.count()
    }
}

#[cfg(test)]
mod tests {
    use super::*;

    #[test]
    fn a_queue_has_one_place_which_is_its_names_crc32() {
        // By Python's zlib.crc32: journals stay where they are.
        for (name, sum) in [("orders.fifo", ORDERS), ("a.fifo", A), ("zebra-9_X.fifo", ZEBRA)] {
            let name = QueueName::parse(name).unwrap();
            for count in 1..=16 {
                let shards = Shards::new(count).unwrap();
                assert_eq!(shards.place_of(&name), (sum % count) as usize);
                assert_eq!(shards.all().filter(|shard| shard.has(&name)).count(), 1);
            }
        }
        assert_eq!((Shards::new(0), Shards::new(17)), (None, None));
    }

    const ORDERS: u32 = 0xfcc2_3f50;
    const A: u32 = 0xbb7a_04a1;
    const ZEBRA: u32 = 0xb351_4824;
}
