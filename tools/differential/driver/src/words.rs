//! Words of a line: pieces between spaces, lists in brackets staying whole, and what single words say.

/// The words of a line, or none where brackets do not close.
pub fn words(line: &str) -> Option<Vec<&str>> {
    let mut found = Vec::new();
    let mut open = Vec::new();
    let mut start = None;
    for (place, letter) in line.char_indices() {
        match letter {
            '[' => open.push(']'),
            '{' => open.push('}'),
            ']' | '}' if open.pop() != Some(letter) => return None,
            _ => {}
        }
        match (letter == ' ' && open.is_empty(), start) {
            (true, Some(first)) => {
                found.push(&line[first..place]);
                start = None;
            }
            (false, None) => start = Some(place),
            _ => {}
        }
    }
    found.extend(start.map(|first| &line[first..]));
    open.is_empty().then_some(found)
}

/// The text between an opening and a closing letter.
pub fn inside(text: &str, opening: char, closing: char) -> Option<&str> {
    text.strip_prefix(opening)?.strip_suffix(closing)
}

/// A decimal number without a sign other than minus.
pub fn number<T: std::str::FromStr>(word: &str) -> Option<T> {
    let digits = word.strip_prefix('-').unwrap_or(word);
    let decimal = !digits.is_empty() && digits.bytes().all(|letter| letter.is_ascii_digit());
    decimal.then(|| word.parse().ok()).flatten()
}

/// The items of a list in brackets, each read by a function.
pub fn list<T>(text: &str, item: impl Fn(&str) -> Option<T>) -> Option<Vec<T>> {
    words(inside(text, '[', ']')?)?
        .into_iter()
        .map(item)
        .collect()
}

/// `x` and two hexadecimal digits for each byte.
pub fn bytes(word: &str) -> Option<Vec<u8>> {
    let digits = word.strip_prefix('x')?.as_bytes();
    let digit = |letter: u8| char::from(letter).to_digit(16);
    if !digits.len().is_multiple_of(2) {
        return None;
    }
    digits
        .chunks_exact(2)
        .map(|pair| Some((digit(pair[0])? * 16 + digit(pair[1])?) as u8))
        .collect()
}

/// The fields of a text of `name=value` words that must be exactly these, in this order.
pub fn named<'a, const N: usize>(text: &'a str, names: [&str; N]) -> Option<[&'a str; N]> {
    let found = words(inside(text, '{', '}')?)?;
    if found.len() != N {
        return None;
    }
    let mut values = [""; N];
    for ((value, word), name) in values.iter_mut().zip(found).zip(names) {
        *value = word.strip_prefix(name)?.strip_prefix('=')?;
    }
    Some(values)
}
