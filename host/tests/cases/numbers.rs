//! Numbers as the cases write them.

const M: u64 = 1_048_576;
/// The most records of a row; more is taken for a mistake.
const LONGEST_ROW: u64 = 100;

/// A number: decimal, `16M`, `2^32` or `eof`; or two of these with + or - between, as in `16M-1`.
pub fn number(word: &str) -> Result<u64, String> {
    let (first, rest) = word.split_at(word.find(['+', '-']).unwrap_or(word.len()));
    let value = term(first).and_then(|first| match rest.split_at_checked(1) {
        None => Some(first),
        Some(("+", second)) => first.checked_add(term(second)?),
        Some((_, second)) => first.checked_sub(term(second)?),
    });
    value.ok_or_else(|| format!("`{word}` is not a number from 0 to 2^64 - 1"))
}

fn term(word: &str) -> Option<u64> {
    if word == "eof" {
        return Some(u64::MAX);
    }
    if let Some(power) = word.strip_prefix("2^") {
        return 1_u64.checked_shl(digits(power)?.try_into().ok()?);
    }
    match word.strip_suffix('M') {
        Some(count) => digits(count)?.checked_mul(M),
        None => digits(word),
    }
}

/// A decimal number with nothing before its first digit.
fn digits(word: &str) -> Option<u64> {
    if word != "0" && word.starts_with(['0', '+']) {
        return None;
    }
    word.parse().ok()
}

/// A number that is small enough for its place.
pub fn small<T: TryFrom<u64>>(word: &str) -> Result<T, String> {
    let small = T::try_from(number(word)?);
    small.map_err(|_| format!("`{word}` is too large here"))
}

/// A first target, which may be negative.
pub fn signed(word: &str) -> Result<i32, String> {
    let (sign, magnitude) = match word.strip_prefix('-') {
        Some(magnitude) => (-1, magnitude),
        None => (1, word),
    };
    let value = sign * i128::from(number(magnitude)?);
    value.try_into().map_err(|_| format!("`{word}` is too large here"))
}

/// Bytes in hexadecimal, two digits each, in the order in which they lie.
pub fn hex(word: &str) -> Result<Vec<u8>, String> {
    let bytes = (0..word.len()).step_by(2).map(|at| {
        let byte = word.get(at..at + 2).ok_or("half a byte")?;
        u8::from_str_radix(byte, 16).map_err(|_| "no byte")
    });
    bytes
        .collect::<Result<_, &str>>()
        .map_err(|what| format!("{what} in `{word}`"))
}

/// Records of `width` numbers with colons between, as in `0:10 1:11`. `0:1 to 15:1` is a row of records: from one to
/// the next each number goes up by 1, or down by 1, or stays.
pub fn records(words: &[&str], width: usize) -> Result<Vec<Vec<u64>>, String> {
    let mut records: Vec<Vec<u64>> = Vec::new();
    let mut words = words.iter();
    while let Some(word) = words.next() {
        if *word == "to" {
            let first = records.last().ok_or("`to` comes after a record")?;
            let last = record(words.next().ok_or("a record comes after `to`")?, width)?;
            records.extend(row(first, &last)?);
        } else {
            records.push(record(word, width)?);
        }
    }
    Ok(records)
}

fn record(word: &str, width: usize) -> Result<Vec<u64>, String> {
    let numbers: Vec<u64> = word.split(':').map(number).collect::<Result<_, _>>()?;
    if numbers.len() != width {
        return Err(format!("`{word}` does not have {width} numbers"));
    }
    Ok(numbers)
}

/// The records after `first`, up to `last`.
fn row(first: &[u64], last: &[u64]) -> Result<Vec<Vec<u64>>, String> {
    let distances: Vec<u64> = first.iter().zip(last).map(|(from, to)| from.abs_diff(*to)).collect();
    let length = distances.iter().copied().max().unwrap_or(0);
    let even = distances.iter().all(|distance| [0, length].contains(distance));
    if !even || length == 0 || length > LONGEST_ROW {
        return Err(format!("no row goes from {first:?} to {last:?}"));
    }
    let at = |step: u64| {
        let numbers = first.iter().zip(last).map(|(from, to)| match from < to {
            true => from + step.min(to - from),
            false => from - step.min(from - to),
        });
        numbers.collect()
    };
    Ok((1..=length).map(at).collect())
}

/// The line with each number in decimal.
pub fn plain(line: &str) -> String {
    let word = |word| number(word).map_or(String::from(word), |number| number.to_string());
    joined(line.split_whitespace().map(word), " ")
}

/// All of these as one text.
pub fn joined<T: ToString>(items: impl IntoIterator<Item = T>, between: &str) -> String {
    let items: Vec<String> = items.into_iter().map(|item| item.to_string()).collect();
    items.join(between)
}
