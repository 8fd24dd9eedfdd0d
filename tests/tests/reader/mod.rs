//! The call and the second reader on one text.

use tests::guard::Guarded;
use tests::random::Random;
use tests::reference::arpa::{read_arpa, Answer, RECORD};

pub const SAMPLE: &str = include_str!("../../irstlm/sample.arpa");

/// Room that the texts of these tests do not fill.
pub const ENOUGH: (usize, usize) = (8 * 400, RECORD * 400);

/// What a reader answers and leaves.
pub struct Read {
    pub answer: Answer,
    pub table: Vec<i32>,
    pub store: Vec<u8>,
}

/// The call between guard zones, with junk in both buffers; the text must be as it was.
fn call(text: &[u8], to_be_filled: bool, (items, bytes): (usize, usize)) -> Read {
    let mut random = Random::new((text.len() + items + bytes) as u64);
    let mut lent = Guarded::new(text);
    let mut table = Guarded::new(&(0..items).map(|_| random.bits() as i32).collect::<Vec<i32>>());
    let mut store = Guarded::new(&(0..bytes).map(|_| random.bits() as u8).collect::<Vec<u8>>());
    let read = backoff::read_arpa(lent.lend(), to_be_filled, table.lend(), store.lend());
    assert!(lent.back() == text, "the lent text was written");
    let answer = Answer { number: read.number, rows: read.rows, place: read.place };
    Read { answer, table: table.back().to_vec(), store: store.back().to_vec() }
}

/// What the call and the second reader agree on, where nothing is to be filled; told that filling follows they agree too.
pub fn read(text: &[u8], room: (usize, usize)) -> Read {
    read_told(text, true, room);
    read_told(text, false, room)
}

/// What they agree on.
pub fn read_told(text: &[u8], to_be_filled: bool, room: (usize, usize)) -> Read {
    let ours = call(text, to_be_filled, room);
    let (mut table, mut store) = (vec![-1; room.0], vec![0xFF; room.1]);
    let answer = read_arpa(text, to_be_filled, &mut table, &mut store);
    let shown = || String::from_utf8_lossy(&text[..text.len().min(2_000)]).into_owned();
    assert_eq!(ours.answer, answer, "room {room:?}\n{}", shown());
    assert!(ours.table == table, "the table after {answer:?}, room {room:?}\n{}", shown());
    assert!(ours.store == store, "the store after {answer:?}, room {room:?}\n{}", shown());
    ours
}

/// The agreed number and place in buffers that are large enough.
pub fn verdict(text: impl AsRef<[u8]>) -> (u32, u64) {
    let Answer { number, place, .. } = read(text.as_ref(), ENOUGH).answer;
    (number, place)
}
