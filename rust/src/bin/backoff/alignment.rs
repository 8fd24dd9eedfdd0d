//! Two readings of a line side by side, and which of their words may have other points.

/// How a pair of words stands to the words that differ.
#[derive(Clone, Copy, Debug, PartialEq)]
pub enum Mark {
    /// The words differ, or one reading has none here.
    Differs,
    /// A word that differs is one of the words that count for this one.
    After,
    /// All words that count are alike, so the points are.
    Alike,
}

/// A place of the one reading, of the other, or of both.
#[derive(Clone, Copy, Debug, PartialEq)]
pub struct Pair {
    pub one: Option<usize>,
    pub two: Option<usize>,
    pub mark: Mark,
}

/// The pairs of two readings, where so many words before a word count for it. Readings of one length are paired place by place. Of others the words that they begin
/// with alike are paired, and those that they end with alike; what lies between differs.
pub fn pairs(one: &[&[u8]], two: &[&[u8]], count: usize) -> Vec<Pair> {
    let (begin, end) = if one.len() == two.len() { (one.len(), 0) } else { ends(one, two) };
    let between = |reading: &[&[u8]]| begin..reading.len() - end;
    let (mut first, mut second) = (between(one), between(two));
    let mut places: Vec<_> = (0..begin).map(|place| (Some(place), Some(place))).collect();
    for _ in 0..first.len().max(second.len()) {
        places.push((first.next(), second.next()));
    }
    places.extend((0..end).rev().map(|back| (Some(one.len() - 1 - back), Some(two.len() - 1 - back))));
    let alike = |places: (Option<usize>, Option<usize>)| matches!(places, (Some(i), Some(j)) if one[i] == two[j]);
    let mut since = count;
    let pair = |places: (Option<usize>, Option<usize>)| {
        let mark = match alike(places) {
            false => Mark::Differs,
            true if since < count => Mark::After,
            true => Mark::Alike,
        };
        since = if mark == Mark::Differs { 0 } else { since + 1 };
        Pair { one: places.0, two: places.1, mark }
    };
    places.into_iter().map(pair).collect()
}

/// How many words two readings begin with alike, and how many of the others they end with alike.
fn ends(one: &[&[u8]], two: &[&[u8]]) -> (usize, usize) {
    let begin = one.iter().zip(two).take_while(|(a, b)| a == b).count();
    let end = one[begin..].iter().rev().zip(two[begin..].iter().rev()).take_while(|(a, b)| a == b).count();
    (begin, end)
}

#[cfg(test)]
mod tests {
    use super::{pairs, Mark};

    /// The words of both readings, and a letter for the mark.
    fn shown(one: &str, two: &str, count: usize) -> String {
        let words = |text: &'static str| text.split_whitespace().map(str::as_bytes).collect::<Vec<_>>();
        let (one, two) = (words(String::leak(one.into())), words(String::leak(two.into())));
        let word =
            |reading: &[&'static [u8]], place: Option<usize>| place.map_or("-", |place| std::str::from_utf8(reading[place]).unwrap());
        let mark = |mark| match mark {
            Mark::Differs => ">",
            Mark::After => "|",
            Mark::Alike => "=",
        };
        let pair = |pair: super::Pair| format!("{}{}{}", word(&one, pair.one), mark(pair.mark), word(&two, pair.two));
        pairs(&one, &two, count).into_iter().map(pair).collect::<Vec<_>>().join(" ")
    }

    #[test]
    fn place_by_place() {
        assert_eq!(shown("a b c d e", "a x c d e", 2), "a=a b>x c|c d|d e=e");
        assert_eq!(shown("a b c d e", "x b y d e", 2), "a>x b|b c>y d|d e|e");
        assert_eq!(shown("a b", "x b", 0), "a>x b=b");
        assert_eq!(shown("", "", 2), "");
        assert_eq!(shown("a b c", "b c a", 1), "a>b b>c c>a");
    }

    #[test]
    fn readings_of_two_lengths() {
        assert_eq!(shown("a b c d", "a x y c d", 1), "a=a b>x ->y c|c d=d");
        assert_eq!(shown("a", "", 1), "a>-");
        assert_eq!(shown("a a", "a a a", 1), "a=a a=a ->a");
        assert_eq!(shown("b c", "a b c", 4), "->a b|b c|c");
    }
}
