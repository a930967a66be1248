//! Numbers and lists of numbers in words.

/// The most parts of a list that are written out.
const PARTS: usize = 10;

/// The clients of a set.
pub fn bits(set: u64) -> Vec<u32> {
    (0..u64::BITS).filter(|bit| set >> bit & 1 == 1).collect()
}

/// A number with a comma before each group of three digits.
pub fn grouped(number: usize) -> String {
    let digits = number.to_string();
    let starts_group = |at: usize| at > 0 && (digits.len() - at).is_multiple_of(3);
    let with_comma =
        |(at, digit)| if starts_group(at) { format!(",{digit}") } else { format!("{digit}") };
    digits.chars().enumerate().map(with_comma).collect()
}

/// So many of a thing.
pub fn counted(number: usize, thing: &str) -> String {
    format!("{} {thing}{}", grouped(number), if number == 1 { "" } else { "s" })
}

/// Head in order, runs of three or more as "4 to 9"; a long list is cut.
pub fn listed(numbers: &[u32]) -> String {
    let mut sorted = numbers.to_vec();
    sorted.sort_unstable();
    let parts: Vec<String> = runs(&sorted).iter().flat_map(|run| parts(run)).collect();
    match parts.len() {
        0..=PARTS => parts.join(", "),
        _ => format!("{}, .. ({} in all)", parts[..PARTS].join(", "), numbers.len()),
    }
}

/// Sorted numbers as runs of neighbours.
fn runs(sorted: &[u32]) -> Vec<&[u32]> {
    sorted.chunk_by(|one, next| one + 1 == *next).collect()
}

fn parts(run: &[u32]) -> Vec<String> {
    match run {
        [first, _, .., last] => vec![format!("{first} to {last}")],
        _ => run.iter().map(u32::to_string).collect(),
    }
}

#[cfg(test)]
mod tests {
    use super::*;

    #[test]
    fn lists_are_short() {
        assert_eq!(listed(&[]), "");
        assert_eq!(listed(&[3, 0, 1]), "0, 1, 3");
        assert_eq!(listed(&[7, 1, 2, 3, 9, 10]), "1 to 3, 7, 9, 10");
        let odd: Vec<u32> = (0..12).map(|k| 2 * k + 1).collect();
        assert_eq!(listed(&odd), "1, 3, 5, 7, 9, 11, 13, 15, 17, 19, .. (12 in all)");
    }

    #[test]
    fn numbers_are_grouped() {
        assert_eq!(grouped(0), "0");
        assert_eq!(grouped(999), "999");
        assert_eq!(grouped(1_000), "1,000");
        assert_eq!(grouped(12_345_678), "12,345,678");
        assert_eq!(counted(1, "call"), "1 call");
        assert_eq!(counted(1_000, "call"), "1,000 calls");
    }

    #[test]
    fn sets_are_bits() {
        assert_eq!(bits(0), []);
        assert_eq!(bits(1 << 63 | 5), [0, 2, 63]);
    }
}
