//! The words of a trace file's lines.

/// The words of a line. Spaces between double quotes belong to their word.
pub fn split(line: &str) -> Vec<String> {
    let mut words = vec![String::new()];
    let mut quoted = false;
    for letter in line.chars() {
        quoted ^= letter == '"';
        if letter == ' ' && !quoted {
            words.push(String::new());
        } else if let Some(word) = words.last_mut() {
            word.push(letter);
        }
    }
    words.retain(|word| !word.is_empty());
    words
}

/// A decimal number; in a repeat also `n`, `n+1`, `n-1` and so on, n being the
/// round.
pub fn number(word: &str, round: u64) -> Result<u64, String> {
    let decimal = |digits: &str| {
        digits
            .parse::<u64>()
            .map_err(|_| format!("'{word}' is no number"))
    };
    match word.strip_prefix('n') {
        None => decimal(word),
        Some("") => Ok(round),
        Some(rest) => match rest.strip_prefix('-') {
            Some(less) => Ok(round.wrapping_sub(decimal(less)?)),
            None => Ok(round + decimal(rest.strip_prefix('+').unwrap_or("no sign"))?),
        },
    }
}

/// A number of some narrower type.
pub fn narrow<T: TryFrom<u64>>(word: &str, round: u64) -> Result<T, String> {
    T::try_from(number(word, round)?).map_err(|_| format!("'{word}' is too large"))
}

/// Octets: `"text"`, hexadecimal as `0A41`, or one so many times as `41*16`.
pub fn octets(word: &str) -> Result<Vec<u8>, String> {
    if let Some(text) = word.strip_prefix('"') {
        let text = text.strip_suffix('"').ok_or("a quote is missing")?;
        return Ok(text.bytes().collect());
    }
    let (digits, times) = word.split_once('*').unwrap_or((word, "1"));
    let once = hexadecimal(digits).ok_or(format!("'{word}' is no octets"))?;
    Ok(once.repeat(narrow(times, 0)?))
}

fn hexadecimal(digits: &str) -> Option<Vec<u8>> {
    let pairs = digits.as_bytes().chunks(2);
    pairs
        .map(|pair| match std::str::from_utf8(pair) {
            Ok(pair) if pair.len() == 2 => u8::from_str_radix(pair, 16).ok(),
            _ => None,
        })
        .collect()
}

/// The octets of all these words, one after another.
pub fn all_octets(words: &[String]) -> Result<Vec<u8>, String> {
    let parts: Result<Vec<_>, _> = words.iter().map(|word| octets(word)).collect();
    Ok(parts?.concat())
}

#[cfg(test)]
mod tests {
    use super::*;

    #[test]
    fn a_text_with_spaces_is_one_word() {
        assert_eq!(
            split("  transfer 0  \"fan 3\" "),
            ["transfer", "0", "\"fan 3\""]
        );
    }

    #[test]
    fn numbers_of_a_round() {
        let read = |word| number(word, 7);
        assert_eq!([read("12"), read("n")], [Ok(12), Ok(7)]);
        assert_eq!([read("n+3"), read("n-3")], [Ok(10), Ok(4)]);
        assert!(read("n3").is_err() && read("").is_err() && read("-1").is_err());
        assert!(narrow::<u8>("256", 0).is_err());
    }

    #[test]
    fn octets_in_three_forms() {
        assert_eq!(octets("\"a b\""), Ok(b"a b".to_vec()));
        assert_eq!(octets("00fF"), Ok(vec![0, 255]));
        assert_eq!(octets("41*3"), Ok(b"AAA".to_vec()));
        assert!(octets("123").is_err() && octets("\"a").is_err() && octets("4g").is_err());
    }
}
