//! The lists that are measured, with their arrays, what is looked up in them and the text that is scored.

use crate::list::{LARGEST_WORD, MOST_ROWS};
use crate::score::LONGEST_RUN;
use tests::lists::{mild, natural, natural_sentence, of_words, pruned, table, uniform};
use tests::random::Random;
use tests::reference::array::MOST_SLOTS;
use tests::reference::build::FREE;
use tests::reference::list::Row;

pub const SHORT: usize = 1_000;

/// The rows of the lists of each kind.
pub const SIZES: [usize; 4] = [SHORT, 4_000, 16_000, MOST_ROWS];

/// Lists of one kind, one for each of `SIZES`.
pub struct Kind {
    pub name: &'static str,
    /// What is particular to it.
    pub note: &'static str,
    /// Draws a list of so many words and rows.
    draw: fn(&mut Random, i32, usize) -> Vec<Row>,
    words: [i32; SIZES.len()],
}

/// Words like a text's, words all equally frequent, and the hardest case for placing: many nodes with many children.
pub const KINDS: [Kind; 3] = [
    Kind {
        name: "natural",
        note: "order 5, words as frequent as a text's",
        draw: |random, words, rows| natural(random, 5, words, rows),
        words: [1_000, 3_000, 10_000, 30_000],
    },
    Kind {
        name: "uniform",
        note: "order 5, words equally frequent",
        draw: |random, words, rows| uniform(random, 5, words, rows),
        words: [300, 1_200, 5_000, 20_000],
    },
    Kind {
        name: "order 2",
        note: "few words, many children to a node",
        draw: |random, words, rows| uniform(random, 2, words, rows),
        words: [50, 200, 750, 3_000],
    },
];

impl Kind {
    /// All lists, each in an array of as many slots as it needs.
    pub fn lists(&self) -> [List; SIZES.len()] {
        std::array::from_fn(|size| self.list(size))
    }

    /// The list of 1,000 rows.
    pub fn short(&self) -> List {
        self.list(0)
    }

    /// The list of 65,535 rows.
    pub fn long(&self) -> List {
        self.list(SIZES.len() - 1)
    }

    /// A list of 65,535 rows whose words are no larger than `largest`.
    pub fn long_within(&self, largest: i32) -> List {
        self.drawn(SIZES.len() - 1, largest)
    }

    fn list(&self, size: usize) -> List {
        self.drawn(size, LARGEST_WORD)
    }

    fn drawn(&self, size: usize, largest: i32) -> List {
        let seed = if SIZES[size] == SHORT { 1 } else { 2 };
        List::new((self.draw)(&mut Random::new(seed), self.words[size].min(largest), SIZES[size]))
    }
}

pub struct Arrays {
    pub base: Vec<i32>,
    pub check: Vec<i32>,
    pub work: Vec<u32>,
}

impl Arrays {
    pub fn new(slots: usize, rows: usize) -> Arrays {
        Arrays { base: vec![0; slots], check: vec![0; slots], work: vec![0; rows] }
    }

    pub fn slots(&self) -> usize {
        self.base.len()
    }
}

pub struct List {
    rows: Vec<Row>,
    pub table: Vec<i32>,
    pub arrays: Arrays,
}

impl List {
    fn new(rows: Vec<Row>) -> List {
        let mut list = List::built(rows, MOST_SLOTS);
        let used = list.arrays.check.iter().rposition(|&item| item != FREE).map_or(0, |last| last + 1);
        list.arrays.base.truncate(used);
        list.arrays.check.truncate(used);
        list
    }

    fn built(rows: Vec<Row>, slots: usize) -> List {
        let table = table(&rows);
        let mut arrays = Arrays::new(slots, rows.len());
        let status = backoff::build(&table, &mut arrays.base, &mut arrays.check, &mut arrays.work);
        assert_eq!(status.number, 0, "the list is built");
        List { rows, table, arrays }
    }

    /// A list whose word numbers are drawn from all that there are, so that the children of a node lie far apart.
    pub fn wide() -> List {
        List::new(uniform(&mut Random::new(2), 2, LARGEST_WORD, MOST_ROWS))
    }

    /// A list of which half the rows are the longest, with words as frequent as a text's.
    pub fn order_3() -> List {
        List::new(natural(&mut Random::new(2), 3, 12_000, MOST_ROWS))
    }

    /// The longest lists with words up to the largest, in arrays of 262,144 slots.
    pub fn all_words() -> [(&'static str, List); 2] {
        let mut random = Random::new(5);
        let lists =
            [("natural", natural(&mut random, 5, LARGEST_WORD, MOST_ROWS)), ("uniform", uniform(&mut random, 5, LARGEST_WORD, MOST_ROWS))];
        lists.map(|(name, rows)| (name, List::built(rows, MOST_SLOTS / 4)))
    }

    /// A list of an order over the words from 1 to this one: the parts of so many random sentences.
    pub fn of_words(order: usize, last: i32, sentences: usize) -> List {
        List::new(of_words(&mut Random::new(9), order, &(1..=last).collect::<Vec<i32>>(), sentences))
    }

    pub fn rows(&self) -> usize {
        self.rows.len()
    }

    /// How many rows have as many words as the order.
    pub fn longest_rows(&self) -> usize {
        let order = self.rows.last().map_or(0, |row| row.words.len());
        self.rows.iter().filter(|row| row.words.len() == order).count()
    }

    /// The list pruned: of a hundred rows that no kept row goes on after, so many are gone. Its numbers are such that filling accepts it.
    pub fn pruned_table(&self, percent: usize) -> Vec<i32> {
        let mut random = Random::new(7);
        let rows = mild(&mut random, &self.rows);
        table(&pruned(&mut random, &rows, percent))
    }

    /// Every row's words, and as many words with the first one changed, in random order.
    pub fn sequences(&self) -> Vec<Vec<u32>> {
        let mut random = Random::new(3);
        let mut sequences: Vec<Vec<u32>> = self.rows.iter().map(|row| row.words.iter().map(|&word| word as u32).collect()).collect();
        for i in 0..sequences.len() {
            let mut other = sequences[i].clone();
            other[0] = 1 + random.below(MOST_ROWS) as u32;
            sequences.push(other);
        }
        for last in (1..sequences.len()).rev() {
            sequences.swap(last, random.below(last + 1));
        }
        sequences
    }

    /// The longest text that a call takes: half of it sentences of the natural lists' kind, half the list's words in random order.
    pub fn unseen_text(&self) -> Vec<u32> {
        let mut random = Random::new(4);
        let mut text = Vec::new();
        while text.len() < LONGEST_RUN / 2 {
            text.extend(natural_sentence(&mut random, 30_000).iter().map(|&word| word as u32));
        }
        text.extend((text.len()..LONGEST_RUN).map(|_| self.rows[random.below(self.rows.len())].words[0] as u32));
        text
    }

    /// The same words in sentences of 20, the last of them 3.
    pub fn ended_text(&self) -> Vec<u32> {
        let words: Vec<u32> = self.unseen_text().into_iter().filter(|&word| word != 3).collect();
        words.chunks(19).flat_map(|sentence| sentence.iter().copied().chain([3])).take(LONGEST_RUN).collect()
    }
}
