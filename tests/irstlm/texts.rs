//! Texts to train and to score: the same ones every time.

use tests::random::Random;

/// Most words are rare, as tlm's estimate needs it; the frequent ones follow each other by a simple rule, so that long rows are met often.
const WORDS: i32 = 12_000;
const FREQUENT: i32 = 200;

pub fn train() -> String {
    let mut random = Random::new(1);
    (0..4_000).map(|_| sentence(&mut random, following)).collect()
}

/// Sentences of the same kind, words in any order, and words that no list has. None goes on after its `</s>`, which ends our context but not irstlm's.
pub fn unseen() -> String {
    let mut random = Random::new(2);
    let any = |random: &mut Random, _| random.zipf(WORDS);
    let unknown = |random: &mut Random, word| if random.chance(20) { WORDS + random.between(1, 100) } else { following(random, word) };
    let mut text = String::from("<s> </s>\n");
    for i in 0..600 {
        text += &sentence(&mut random, [following, any, unknown][i % 3]);
    }
    text
}

fn following(random: &mut Random, word: i32) -> i32 {
    match random.below(10) {
        0..=5 => (7 * word + 13 * random.between(0, 3)) % FREQUENT + 1,
        _ => random.zipf(WORDS),
    }
}

/// A line: the words between their marks.
fn sentence(random: &mut Random, next: fn(&mut Random, i32) -> i32) -> String {
    let mut text = String::from("<s> ");
    let mut word = random.zipf(WORDS);
    for _ in 0..1 + random.below(20) {
        text += &format!("w{word} ");
        word = next(random, word);
    }
    text + "</s>\n"
}
