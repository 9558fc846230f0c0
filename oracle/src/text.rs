//! Doubles as the case language reads and writes them: `nan`, `inf`, `-inf`; an integer `N`, or a
//! quotient `N/D` rounded once, with or without `-`; `x` and the 16 hex digits of the bits. And type
//! sets and totals as it reads them: integers of 32 bits, and of 64 bits with or without `-`. And
//! bytes by their hex digits, in words of any length.

/// The largest integer of a case. Up to here every integer is a double.
const LARGEST: u64 = 1 << 53;

/// The double that a word spells.
pub fn read(word: &str) -> Option<f64> {
    if word == "nan" {
        Some(f64::NAN)
    } else if let Some(digits) = word.strip_prefix('x') {
        read_bits(digits)
    } else if let Some(magnitude) = word.strip_prefix('-') {
        read_magnitude(magnitude).map(|value| -value)
    } else {
        read_magnitude(word)
    }
}

fn read_bits(digits: &str) -> Option<f64> {
    if digits.len() != 16 || !is_hex(digits) {
        return None;
    }
    u64::from_str_radix(digits, 16).ok().map(f64::from_bits)
}

fn is_hex(digits: &str) -> bool {
    let is_digit = |digit| matches!(digit, b'0'..=b'9' | b'a'..=b'f');
    digits.bytes().all(is_digit)
}

/// The bytes that words spell, of which a byte's two digits may stand in two.
pub fn read_bytes(words: &[&str]) -> Option<Vec<u8>> {
    let digits = words.concat();
    if !digits.len().is_multiple_of(2) || !is_hex(&digits) {
        return None;
    }
    let places = (0..digits.len()).step_by(2);
    let bytes = places.map(|at| u8::from_str_radix(&digits[at..at + 2], 16).ok());
    bytes.collect()
}

/// The words for bytes, 16 a word.
pub fn write_bytes(bytes: &[u8]) -> Vec<String> {
    let word = |bytes: &[u8]| bytes.iter().map(|byte| format!("{byte:02x}")).collect();
    bytes.chunks(16).map(word).collect()
}

/// `inf`, `N` or `N/D`.
fn read_magnitude(word: &str) -> Option<f64> {
    match word.split_once('/') {
        _ if word == "inf" => Some(f64::INFINITY),
        None => read_integer(word),
        Some((n, d)) => Some(read_integer(n)? / read_integer(d).filter(|&d| d != 0.0)?),
    }
}

fn read_integer(digits: &str) -> Option<f64> {
    let value = read_digits(digits)?;
    (value <= LARGEST).then_some(value as f64)
}

/// The type set that a word spells, by its bits.
pub fn read_set(word: &str) -> Option<u32> {
    read_digits(word)?.try_into().ok()
}

/// The total that a word spells.
pub fn read_total(word: &str) -> Option<i64> {
    let total = match word.strip_prefix('-') {
        Some(magnitude) => -i128::from(read_digits(magnitude)?),
        None => i128::from(read_digits(word)?),
    };
    total.try_into().ok()
}

fn read_digits(digits: &str) -> Option<u64> {
    let is_number = digits.bytes().all(|digit| digit.is_ascii_digit());
    digits.parse().ok().filter(|_| is_number)
}

/// The word for a double in an answer: a NaN without its bits, and by its bits what is no fraction of a
/// few digits.
pub fn write(value: f64) -> String {
    let scaled = value * 1024.0;
    if value.is_nan() {
        "nan".to_string()
    } else if value == 0.0 && value.is_sign_negative() {
        "-0".to_string()
    } else if value.is_infinite() {
        value.to_string()
    } else if scaled.fract() == 0.0 && scaled.abs() <= LARGEST as f64 {
        write_fraction(scaled as i64)
    } else {
        write_bits(value)
    }
}

/// `n` / 1024, reduced.
fn write_fraction(n: i64) -> String {
    let halvings = n.trailing_zeros().min(10);
    match (n >> halvings, 1024 >> halvings) {
        (n, 1) => n.to_string(),
        (n, d) => format!("{n}/{d}"),
    }
}

fn write_bits(value: f64) -> String {
    format!("x{:016x}", value.to_bits())
}

/// The word for a double as an operand, which reads back to the same bits.
pub fn write_operand(value: f64) -> String {
    let same = |word: &String| read(word).map(f64::to_bits) == Some(value.to_bits());
    Some(write(value))
        .filter(same)
        .unwrap_or_else(|| write_bits(value))
}

/// A line of a case file: a name and other words.
pub fn write_line(name: &str, words: &[String]) -> String {
    let words = words.iter().map(|word| " ".to_string() + word);
    format!("{name}{}\n", words.collect::<String>())
}

/// The words for doubles as operands.
pub fn write_operands(values: &[f64]) -> Vec<String> {
    values.iter().map(|value| write_operand(*value)).collect()
}

#[cfg(test)]
mod tests {
    use super::*;

    #[test]
    fn words_that_are_written_as_they_are_read() {
        let words = "nan inf -inf 0 -0 7 -7 1/2 -35/2 1/1024 x3fb999999999999a x0000000000000001 \
            8796093022208 x42a0000000000001 xffefffffffffffff";
        for word in words.split(' ') {
            assert_eq!(read(word).map(write).as_deref(), Some(word));
        }
    }

    #[test]
    fn words_that_are_written_in_another_way() {
        let words = [
            ("-0/5", "-0"),
            ("2/4", "1/2"),
            ("1/10", "x3fb999999999999a"),
        ];
        for (word, written) in words {
            assert_eq!(read(word).map(write).as_deref(), Some(written));
        }
    }

    #[test]
    fn words_that_are_no_doubles() {
        let words = "- + +1 --1 1/ /2 1/0 1/-2 1.5 1e3 -nan --inf 1/inf 9007199254740993 x1 x7FF0000000000000";
        for word in words.split(' ').chain([""]) {
            assert_eq!(read(word), None, "{word}");
        }
    }

    #[test]
    fn type_sets() {
        assert_eq!(read_set("0"), Some(0));
        assert_eq!(read_set("4294967295"), Some(u32::MAX));
        for word in ["", "-", "-1", "+1", "1/1", "inf", "4294967296"] {
            assert_eq!(read_set(word), None, "{word}");
        }
    }

    #[test]
    fn bytes() {
        let bytes: Vec<u8> = (0..=255).collect();
        let words = write_bytes(&bytes);
        let words: Vec<&str> = words.iter().map(String::as_str).collect();
        assert_eq!(words[0], "000102030405060708090a0b0c0d0e0f");
        assert_eq!(read_bytes(&words), Some(bytes));
        assert_eq!(read_bytes(&[]), Some(vec![]));
        assert_eq!(read_bytes(&["0", "1f", "e"]), Some(vec![0x01, 0xfe]));
        for word in ["0", "012", "0g", "0A", "+1", "0x01", "é"] {
            assert_eq!(read_bytes(&[word]), None, "{word}");
        }
    }

    #[test]
    fn totals() {
        let totals = [("0", 0), ("-0", 0), ("-9223372036854775808", i64::MIN)];
        for (word, total) in totals {
            assert_eq!(read_total(word), Some(total));
        }
        for word in [
            "",
            "-",
            "--1",
            "+1",
            "1/1",
            "9223372036854775808",
            "-9223372036854775809",
        ] {
            assert_eq!(read_total(word), None, "{word}");
        }
    }

    #[test]
    fn operands_keep_their_bits() {
        for bits in [0, 1 << 63, 0x7ff8 << 48, 0x7ff0 << 48 | 1, 0xfff8 << 48] {
            let word = write_operand(f64::from_bits(bits));
            assert_eq!(read(&word).map(f64::to_bits), Some(bits));
        }
    }
}
