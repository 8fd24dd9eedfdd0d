//! Logarithms as estimators write them, in the form that the reader takes: a minus or none, one to three digits, and optionally a point with one to seven digits.

use crate::changes::{Change, Changes};

/// The most digits of the form before the point, and behind it.
const WHOLE: usize = 3;
const DECIMALS: usize = 7;

/// A number as it is written.
struct Number<'a> {
    sign: Option<u8>,
    whole: &'a [u8],
    /// What follows the point.
    decimals: Option<&'a [u8]>,
    exponent: Option<i64>,
}

pub fn is_in_form(field: &[u8]) -> bool {
    let digits = field.strip_prefix(b"-").unwrap_or(field);
    let mut parts = digits.splitn(2, |&byte| byte == b'.');
    let is = |part: &[u8], most: usize| (1..=most).contains(&part.len()) && are_digits(part);
    parts.next().is_some_and(|whole| is(whole, WHOLE)) && parts.next().is_none_or(|decimals| is(decimals, DECIMALS))
}

pub fn is_number(field: &[u8]) -> bool {
    Number::parse(field).is_some()
}

/// The logarithm in form: as it is where it is in form, else its digits up to the seventh decimal. These are rounded to the point that is nearest to the number. None where
/// it is no number, or has more than three digits before its point.
pub fn in_form(field: &[u8], changes: &mut Changes) -> Option<Vec<u8>> {
    if is_in_form(field) {
        return Some(field.to_vec());
    }
    let number = Number::parse(field)?;
    let (whole, decimals) = number.written_out()?;
    let kept = without_zeros(&decimals[..decimals.len().min(DECIMALS)]);
    changes.add(Change::Plus, number.sign == Some(b'+'));
    changes.add(Change::Exponent, number.exponent.is_some());
    changes.add(Change::Decimals, decimals.len() > DECIMALS);
    changes.add(Change::Digits, number.exponent.is_none() && number.has_other_digits());
    let minus = if number.sign == Some(b'-') { &b"-"[..] } else { b"" };
    let point = if kept.is_empty() { &b""[..] } else { b"." };
    Some([minus, if whole.is_empty() { b"0" } else { &whole }, point, kept].concat())
}

fn are_digits(part: &[u8]) -> bool {
    part.iter().all(u8::is_ascii_digit)
}

fn without_zeros(digits: &[u8]) -> &[u8] {
    &digits[..digits.iter().rposition(|&digit| digit != b'0').map_or(0, |last| last + 1)]
}

impl<'a> Number<'a> {
    fn parse(field: &'a [u8]) -> Option<Number<'a>> {
        let (sign, rest) = match field.split_first() {
            Some((sign @ (b'+' | b'-'), rest)) => (Some(*sign), rest),
            _ => (None, field),
        };
        let (mantissa, exponent) = match rest.iter().position(|byte| matches!(byte, b'e' | b'E')) {
            Some(place) => (&rest[..place], Some(parse_exponent(&rest[place + 1..])?)),
            None => (rest, None),
        };
        let mut parts = mantissa.splitn(2, |&byte| byte == b'.');
        let (whole, decimals) = (parts.next().unwrap_or_default(), parts.next());
        let some = !whole.is_empty() || decimals.is_some_and(|decimals| !decimals.is_empty());
        (some && are_digits(whole) && are_digits(decimals.unwrap_or_default())).then_some(Number { sign, whole, decimals, exponent })
    }

    fn has_other_digits(&self) -> bool {
        self.whole.is_empty() || self.whole.len() > WHOLE || self.decimals.is_some_and(<[u8]>::is_empty)
    }

    /// The digits before the point, without zeros in front, and all digits behind it; none where there are too many before it.
    fn written_out(&self) -> Option<(Vec<u8>, Vec<u8>)> {
        let digits = [self.whole, self.decimals.unwrap_or_default()].concat();
        let zeros = digits.iter().take_while(|&&digit| digit == b'0').count();
        // The number is 0.DIGITS times 10 to this power.
        let power = self.exponent.unwrap_or(0).saturating_add(self.whole.len() as i64 - zeros as i64);
        let digits = &digits[zeros..];
        if power <= 0 || digits.is_empty() {
            // Zeros beyond the form tell nothing more.
            let zeros = if digits.is_empty() { self.decimals.map_or(0, <[u8]>::len) } else { power.unsigned_abs() as usize };
            return Some((Vec::new(), [&vec![b'0'; zeros.min(DECIMALS + 1)][..], digits].concat()));
        }
        let whole = usize::try_from(power).ok().filter(|&power| power <= WHOLE)?;
        let padded = [digits, &vec![b'0'; whole.saturating_sub(digits.len())]].concat();
        Some((padded[..whole].to_vec(), padded[whole..].to_vec()))
    }
}

/// An exponent; one that no number of bits holds is as good as the largest.
fn parse_exponent(text: &[u8]) -> Option<i64> {
    let (minus, digits) = match text.split_first() {
        Some((b'-', digits)) => (true, digits),
        Some((b'+', digits)) => (false, digits),
        _ => (false, text),
    };
    if digits.is_empty() || !are_digits(digits) {
        return None;
    }
    let size = digits.iter().fold(0i64, |size, digit| size.saturating_mul(10).saturating_add(i64::from(digit - b'0')));
    Some(if minus { -size } else { size })
}

#[cfg(test)]
mod tests {
    use super::{in_form, is_in_form};
    use crate::changes::Changes;

    fn put(field: &str) -> Option<String> {
        in_form(field.as_bytes(), &mut Changes::default()).map(|text| String::from_utf8(text).unwrap())
    }

    #[test]
    fn known() {
        let known = [
            ("-0.5", "-0.5"),
            ("007", "007"),
            ("-1.234567890e-02", "-0.0123456"),
            ("-1.23456789", "-1.2345678"),
            ("+0.25", "0.25"),
            (".5", "0.5"),
            ("-.5", "-0.5"),
            ("5.", "5"),
            ("-0012.5", "-12.5"),
            ("-1E+1", "-10"),
            ("9.9e1", "99"),
            ("1e0", "1"),
            ("1.25e2", "125"),
            ("-12.5e-1", "-1.25"),
            ("0e5", "0"),
            ("-0.0000000000", "-0"),
            ("1e-7", "0.0000001"),
            ("4.9999999999e-7", "0.0000004"),
            ("-1e-99999999999999999999", "-0"),
            ("0e99999999999999999999", "0"),
            ("1.5000000", "1.5000000"),
            ("1.50000000", "1.5"),
        ];
        for (field, expected) in known {
            assert_eq!(put(field).as_deref(), Some(expected), "{field}");
            assert!(is_in_form(expected.as_bytes()), "{expected}");
        }
        for field in [
            "",
            "-",
            "+",
            ".",
            "-.",
            "e5",
            "1e",
            "1e+",
            "--1",
            "1.2.3",
            "1e1.5",
            "nan",
            "-inf",
            "0x10",
            "1,5",
            "1000",
            "1e3",
            "-1e99999999999999999999",
            " 1",
            "1 ",
        ] {
            assert_eq!(put(field), None, "{field}");
        }
    }

    /// Whatever is changed is counted, and what is in form is not changed.
    #[test]
    fn changes_are_counted() {
        for field in ["+1", "1e0", "1.00000000", ".5", "5.", "0001", "+.5e1"] {
            let mut changes = Changes::default();
            assert_ne!(in_form(field.as_bytes(), &mut changes), Some(field.as_bytes().to_vec()));
            assert_ne!(changes, Changes::default(), "{field}");
        }
        for field in ["1", "-0.1234567", "999.9999999"] {
            let mut changes = Changes::default();
            assert_eq!(in_form(field.as_bytes(), &mut changes), Some(field.as_bytes().to_vec()));
            assert_eq!(changes, Changes::default(), "{field}");
        }
    }
}
