//! Numbers as they are printed.

use backoff::limits::POINTS_PER_LOG;

/// The significant digits that a C++ stream prints.
const SIGNIFICANT: i32 = 6;

/// Points as a base-10 logarithm.
pub fn log10(points: i64) -> f64 {
    points as f64 / f64::from(POINTS_PER_LOG)
}

/// Points as a base-10 logarithm, exactly: as many decimals as it has, and no exponent.
pub fn write_log10(out: &mut Vec<u8>, points: i64) {
    if points < 0 {
        out.push(b'-');
    }
    let whole = i64::from(POINTS_PER_LOG);
    write_whole(out, points.abs() / whole);
    let mut fraction = points.abs() % whole;
    if fraction > 0 {
        out.push(b'.');
    }
    let mut place = whole / 10;
    while fraction > 0 {
        out.push(b'0' + (fraction / place) as u8);
        fraction %= place;
        place /= 10;
    }
}

/// The same as a text.
pub fn log10_text(points: i64) -> String {
    let mut text = Vec::new();
    write_log10(&mut text, points);
    String::from_utf8_lossy(&text).into_owned()
}

/// A whole number.
pub fn write_whole(out: &mut Vec<u8>, number: i64) {
    let mut digits = [0; 20];
    let mut start = digits.len();
    let mut rest = number.unsigned_abs();
    while rest > 0 || start == digits.len() {
        start -= 1;
        digits[start] = b'0' + (rest % 10) as u8;
        rest /= 10;
    }
    if number < 0 {
        out.push(b'-');
    }
    out.extend_from_slice(&digits[start..]);
}

/// A number as a C++ stream prints it: six significant digits, no zeros behind the last one (`%g` of C).
pub fn six_digits(number: f64) -> String {
    if !number.is_finite() {
        return number.to_string().to_lowercase();
    }
    let scientific = format!("{number:.*e}", SIGNIFICANT as usize - 1);
    let (digits, exponent) = scientific.split_once('e').unwrap_or((&scientific, "0"));
    let exponent: i32 = exponent.parse().unwrap_or(0);
    if (-4..SIGNIFICANT).contains(&exponent) {
        return without_zeros(&format!("{number:.*}", (SIGNIFICANT - 1 - exponent) as usize)).to_string();
    }
    let sign = if exponent < 0 { '-' } else { '+' };
    format!("{}e{sign}{:02}", without_zeros(digits), exponent.abs())
}

fn without_zeros(digits: &str) -> &str {
    match digits.contains('.') {
        true => digits.trim_end_matches('0').trim_end_matches('.'),
        false => digits,
    }
}

/// A whole number with commas between thousands.
pub fn thousands(number: u64) -> String {
    let digits = number.to_string();
    let mut text = String::new();
    for (place, digit) in digits.chars().enumerate() {
        if place > 0 && (digits.len() - place).is_multiple_of(3) {
            text.push(',');
        }
        text.push(digit);
    }
    text
}

#[cfg(test)]
mod tests {
    use super::{log10_text, six_digits, thousands, write_whole};

    /// What `printf '%g'` prints.
    #[test]
    fn as_c_prints_them() {
        let printed = [
            (0.0, "0"),
            (-0.4, "-0.4"),
            (100.0, "100"),
            (123456.0, "123456"),
            (1234567.0, "1.23457e+06"),
            (999999.5, "1e+06"),
            (99999.95, "99999.9"),
            (99999.96, "100000"),
            (0.0001, "0.0001"),
            (0.00001, "1e-05"),
            (-12345.6789, "-12345.7"),
            (1e100, "1e+100"),
            (2.5e-7, "2.5e-07"),
            (f64::INFINITY, "inf"),
            (f64::NEG_INFINITY, "-inf"),
            (f64::NAN, "nan"),
        ];
        for (number, text) in printed {
            assert_eq!(six_digits(number), text);
        }
    }

    /// Six decimals, without the zeros behind the last digit.
    #[test]
    fn points_as_logarithms() {
        let known = [
            (0, "0"),
            (1, "0.000001"),
            (-10, "-0.00001"),
            (-999_999, "-0.999999"),
            (1_000_000, "1"),
            (-98_765_432, "-98.765432"),
            (-99_000_000, "-99"),
            (-6_487_965_000_000, "-6487965"),
        ];
        for (points, text) in known {
            assert_eq!(log10_text(points), text);
        }
        for points in (-2_000_050..=2_000_050).step_by(7).chain([i64::MIN + 1, i64::MAX]) {
            let text = log10_text(points);
            let (whole, decimals) = text.split_once('.').unwrap_or((&text, ""));
            assert!(decimals.len() <= 6 && !decimals.ends_with('0') && text.contains('.') == !decimals.is_empty(), "{text}");
            assert_eq!(format!("{whole}{decimals:0<6}").parse(), Ok(points), "{text}");
        }
    }

    #[test]
    fn whole_numbers() {
        for number in [0, 7, -10, 65_535, -99_000_000, i64::MIN, i64::MAX] {
            let mut text = Vec::new();
            write_whole(&mut text, number);
            assert_eq!(String::from_utf8_lossy(&text), number.to_string());
        }
    }

    #[test]
    fn commas() {
        let printed = [0, 999, 1_000, 65_535, 1_048_576].map(thousands);
        assert_eq!(printed, ["0", "999", "1,000", "65,535", "1,048,576"]);
    }
}
