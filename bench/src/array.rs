//! Build and lookup as the team writes them in Rust: the two arrays and work are all the memory there is.

use crate::list::{self, Row, LARGEST_B, LARGEST_WORD, LOWEST_P, MOST_ROWS};
use backoff::{Found, Status};

pub const FREE: i32 = i32::MIN;
const MOST_SLOTS: usize = 1_048_576;
const HEAD: i32 = 24;
const ACCEPTED: Status = Status { number: 0, place: 0 };

/// Builds the double array of a list, the search for d from the first free slot on: 1, 2, row by row 3 to 8, 9, 10.
pub fn build(table: &[i32], base: &mut [i32], check: &mut [i32], work: &mut [u32]) -> Status {
    build_by::<FromFirstFree>(table, base, check, work)
}

/// The same, the search as it is given.
pub fn build_by<S: Search>(table: &[i32], base: &mut [i32], check: &mut [i32], work: &mut [u32]) -> Status {
    let (rows, _) = table.as_chunks::<8>();
    if list::length_fits(table) && (!lengths_fit(base, check) || work.len() < rows.len()) {
        return Status { number: 2, place: 0 };
    }
    let verdict = list::check(table);
    if verdict != ACCEPTED {
        return verdict;
    }
    clear(base, check);
    let Some(search) = place::<S>(rows, base, check, work) else {
        clear(base, check);
        work[..rows.len()].fill(0);
        return Status { number: 10, place: 0 };
    };
    search.finish(base, check);
    (base[0], check[0]) = (1, HEAD + rows[rows.len() - 1][0]);
    set_continued(rows, base, check);
    ACCEPTED
}

pub fn lengths_fit(base: &[i32], check: &[i32]) -> bool {
    base.len() == check.len() && (2..=MOST_SLOTS).contains(&base.len())
}

fn clear(base: &mut [i32], check: &mut [i32]) {
    base.fill(0);
    check.fill(FREE);
}

/// How the free slots are held and gone through while nodes are placed. Slot 0 is no part of it: it is written at the end.
pub trait Search: Default {
    /// The smallest d with room for the children behind it or ahead of it, and whether they lie behind. Slots past the end count as free.
    fn first_fit(&mut self, children: &[Row], base: &[i32], check: &[i32]) -> (usize, bool);
    /// Gives a free slot its BASE and CHECK.
    fn take(base: &mut [i32], check: &mut [i32], slot: usize, load: i32, mark: i32) {
        (base[slot], check[slot]) = (load, mark);
    }
    /// Leaves BASE 0 and CHECK FREE in the free slots.
    fn finish(&self, _base: &mut [i32], _check: &mut [i32]) {}
}

/// Every d is tried, 1 first.
#[derive(Default)]
pub struct EveryD;

impl Search for EveryD {
    fn first_fit(&mut self, children: &[Row], _base: &[i32], check: &[i32]) -> (usize, bool) {
        first_fit_from(1, children, check)
    }
}

/// Every d is tried, the first free slot first.
#[derive(Default)]
struct FromFirstFree {
    /// No slot below is free.
    front: usize,
}

impl Search for FromFirstFree {
    fn first_fit(&mut self, children: &[Row], _base: &[i32], check: &[i32]) -> (usize, bool) {
        self.front = self.front.max(1);
        while self.front < check.len() && check[self.front] != FREE {
            self.front += 1;
        }
        first_fit_from(self.front, children, check)
    }
}

fn first_fit_from(first: usize, children: &[Row], check: &[i32]) -> (usize, bool) {
    let free = |slot: usize| slot >= check.len() || check[slot] == FREE;
    let largest = largest_word(children);
    let mut d = first;
    loop {
        if free(d) {
            if d > largest && children.iter().all(|child| free(d - child[1] as usize)) {
                return (d, true);
            }
            if children.iter().all(|child| free(d + child[1] as usize)) {
                return (d, false);
            }
        }
        d += 1;
    }
}

/// The last child's word, 0 where there is none.
pub fn largest_word(children: &[Row]) -> usize {
    children.last().map_or(0, |child| child[1] as usize)
}

/// Places all nodes and writes everything but slot 0 and the f of the markers; nothing where a slot at or past the end is used. The longest rows come last, and
/// have no marker.
fn place<S: Search>(rows: &[Row], base: &mut [i32], check: &mut [i32], work: &mut [u32]) -> Option<S> {
    let mut search = S::default();
    let ones = rows.partition_point(|row| row[0] == 1);
    let d = settle(&rows[..ones], 0, &mut search, base, check, &mut work[..ones])?;
    S::take(base, check, d, rows.len() as i32, -1);
    let longest = rows.partition_point(|row| row[0] < rows[rows.len() - 1][0]);
    // The children of the rows, in the order of the rows, are the rows of two and more words.
    let mut next = ones;
    for (i, row) in rows[..longest].iter().enumerate() {
        let m = row[0] as usize;
        let is_child = |child: &Row| child[0] == row[0] + 1 && child[2..2 + m] == row[1..1 + m];
        let end = rows[next..].iter().position(|child| !is_child(child)).map_or(rows.len(), |count| next + count);
        let slot = work[i] as usize;
        let d = settle(&rows[next..end], slot, &mut search, base, check, &mut work[next..end])?;
        base[slot] = d as i32;
        let extended = (next < end) as i32;
        S::take(base, check, d, 4 * row[7] + 2 * extended, row[6] - 1);
        next = end;
    }
    for (row, &slot) in rows[longest..].iter().zip(&work[longest..]) {
        base[slot as usize] = row[6] - 1;
    }
    Some(search)
}

/// Finds the d of the node in `slot`, and takes the slots of its children.
fn settle<S: Search>(
    children: &[Row],
    slot: usize,
    search: &mut S,
    base: &mut [i32],
    check: &mut [i32],
    work: &mut [u32],
) -> Option<usize> {
    let (d, behind) = search.first_fit(children, base, check);
    let highest = if behind { d } else { d + largest_word(children) };
    if highest >= check.len() {
        return None;
    }
    for (child, item) in children.iter().zip(work) {
        let word = child[1] as usize;
        let place = if behind { d - word } else { d + word };
        S::take(base, check, place, 0, slot as i32);
        *item = place as u32;
    }
    Some(d)
}

/// Sets f in the marker of every row that some row continues.
fn set_continued(rows: &[Row], base: &mut [i32], check: &[i32]) {
    for row in rows.iter().filter(|row| row[0] > 1) {
        let without_last = &row[1..row[0] as usize];
        let next = |node, &word: &i32| child(base, check, node, word as u32).expect("every part of a row is a row");
        let node = without_last.iter().rev().fold(0, next);
        base[base[node] as usize] |= 1;
    }
}

/// Check 11.
pub fn head_fits(base: &[i32], check: &[i32]) -> bool {
    let orders = HEAD + 1..=HEAD + 5;
    lengths_fit(base, check) && base[0] == 1 && orders.contains(&check[0]) && check[1] == -1 && (3..=MOST_ROWS as i32).contains(&base[1])
}

/// The order that a head tells.
pub fn order(check: &[i32]) -> i32 {
    check[0] - HEAD
}

/// The slot of a node's child for a word: ahead of d, else behind it.
pub fn child(base: &[i32], check: &[i32], node: usize, word: u32) -> Option<usize> {
    let d = base[node];
    if d < 1 || word.wrapping_sub(1) >= LARGEST_WORD as u32 {
        return None;
    }
    let (d, word) = (d as usize, word as usize);
    let owned = |slot: usize| slot < check.len() && check[slot] == node as i32;
    if owned(d + word) {
        return Some(d + word);
    }
    (d > word && owned(d - word)).then(|| d - word)
}

/// What the node of a longest row, or the marker of another one, holds: p, and 4 × b + 2 × e + f; nothing where it is not sound.
pub fn marker(base: &[i32], check: &[i32], longest: bool, node: usize) -> Option<(i32, i32)> {
    let d = base[node];
    if longest {
        return own_p(d).map(|p| (p, 0));
    }
    if d < 1 || d as usize >= base.len() {
        return None;
    }
    let (last, packed) = (check[d as usize], base[d as usize]);
    let sound = (LOWEST_P - 1..=-1).contains(&last) && (-4 * LARGEST_B..=4 * LARGEST_B + 3).contains(&packed);
    sound.then_some((last + 1, packed))
}

/// The p in the BASE of a longest row's node.
#[inline(always)]
pub fn own_p(base: i32) -> Option<i32> {
    (LOWEST_P - 1..=-1).contains(&base).then_some(base + 1)
}

/// Whether b is not 0 or f is 1.
pub fn is_live(packed: i32) -> bool {
    packed & !2 != 0
}

/// What e adds to a length byte.
pub fn extended_byte(packed: i32) -> u8 {
    (packed as u8 & 2) << 3
}

/// Looks a sequence up, oldest word first: 11, 14, 12.
#[inline(never)]
pub fn lookup(base: &[i32], check: &[i32], words: &[u32]) -> Found {
    let refused = |number| Found { number, place: 0, found: 0, p: 0, b: 0, left: 0 };
    if !head_fits(base, check) {
        return refused(11);
    }
    if words.is_empty() || words.len() > 5 {
        return refused(14);
    }
    let not_found = refused(0);
    let order = order(check) as usize;
    if words.len() > order {
        return not_found;
    }
    let mut node = 0;
    let mut found = not_found;
    for (depth, &word) in (1..).zip(words.iter().rev()) {
        let Some(slot) = child(base, check, node, word) else { return not_found };
        let Some((p, packed)) = marker(base, check, depth == order, slot) else { return refused(12) };
        found = Found { number: 0, place: 0, found: 1, p, b: packed >> 2, left: packed as u32 >> 1 & 1 };
        node = slot;
    }
    found
}

#[cfg(test)]
mod tests {
    use crate::linked::Links;
    use backoff::Status;
    use tests::arrays::drawn;
    use tests::lists::{small, table};
    use tests::random::Random;
    use tests::reference;

    /// The builders that ours is timed against write the same arrays.
    #[test]
    fn same_arrays() {
        let builders: [Build; 3] = [super::build, super::build_by::<super::EveryD>, super::build_by::<Links>];
        builders.into_iter().for_each(check);
    }

    type Build = fn(&[i32], &mut [i32], &mut [i32], &mut [u32]) -> Status;

    fn check(build: Build) {
        let mut random = Random::new(1);
        for i in 0..500 {
            let table = table(&small(&mut random, 1 + i % 5));
            let slots = random.pick(&[40, 400, 70_000]);
            let (mut base, mut check, mut work) = (vec![5; slots], vec![5; slots], vec![5; table.len() / 8]);
            let (mut base2, mut check2, mut work2) = (base.clone(), check.clone(), work.clone());
            let status = build(&table, &mut base, &mut check, &mut work);
            let second = reference::build::build(&table, &mut base2, &mut check2, &mut work2);
            assert_eq!((status.number, status.place), second);
            assert!(base == base2 && check == check2 && work == work2);
        }
    }

    /// The lookup that ours is timed against gives the same answers over any arrays.
    #[test]
    fn same_lookups() {
        let mut random = Random::new(2);
        for _ in 0..20_000 {
            let arrays = drawn(&mut random);
            let words: Vec<u32> = (0..random.below(6)).map(|_| random.below(20) as u32).collect();
            let found = super::lookup(&arrays.base, &arrays.check, &words);
            let second = reference::array::lookup(&arrays.base, &arrays.check, &words);
            assert_eq!(((found.number, found.place), found.found == 1, found.p, found.b, found.left == 1), second);
        }
    }
}
