//! Prefix codes from counts: lengths of at most a limit, and the canonical words.

/// The length of each symbol's word, 0 for a symbol that is not used, at most `limit`. A symbol alone has length 1.
///
/// Huffman's tree over the counts; where a word would be longer than the limit, small counts are raised and the tree is made again.
pub fn lengths(uses: &[u32], limit: u8) -> Vec<u8> {
    let mut least = 1u64;
    loop {
        let lengths = tree(uses, least);
        if lengths.iter().all(|&length| length <= limit) {
            return lengths;
        }
        least *= 2;
    }
}

/// Huffman's tree with no count below `least`.
fn tree(uses: &[u32], least: u64) -> Vec<u8> {
    let mut lengths = vec![0u8; uses.len()];
    // weight, and the symbols under it
    let mut trees: Vec<(u64, Vec<usize>)> =
        uses.iter().enumerate().filter(|(_, &n)| n > 0).map(|(symbol, &n)| (u64::from(n).max(least), vec![symbol])).collect();
    if let [(_, only)] = &trees[..] {
        lengths[only[0]] = 1;
    }
    while trees.len() > 1 {
        // the two lightest last; of equal ones the later symbols
        trees.sort_by(|a, b| b.0.cmp(&a.0).then(a.1[0].cmp(&b.1[0])));
        let (first, second) = (trees.pop().expect("two"), trees.pop().expect("two"));
        let under: Vec<usize> = first.1.into_iter().chain(second.1).collect();
        under.iter().for_each(|&symbol| lengths[symbol] += 1);
        trees.push((first.0 + second.0, under));
    }
    lengths
}

/// The canonical words of these lengths.
pub fn words(lengths: &[u8]) -> Vec<u32> {
    let longest = lengths.iter().copied().max().unwrap_or(0);
    let mut words = vec![0; lengths.len()];
    let mut next = 0;
    for length in 1..=longest {
        next <<= 1;
        for (word, _) in words.iter_mut().zip(lengths).filter(|(_, &l)| l == length) {
            *word = next;
            next += 1;
        }
    }
    words
}

/// Frequencies of an ANS code: the counts scaled to a sum of 4,096, at least 1 for each symbol that is used; all 0 where none is.
pub fn frequencies(uses: &[u32]) -> Vec<u16> {
    const WHOLE: u64 = 4_096;
    let sum: u64 = uses.iter().map(|&n| u64::from(n)).sum();
    let mut freqs: Vec<u16> =
        uses.iter().map(|&n| if n == 0 { 0 } else { (u64::from(n) * WHOLE / sum).max(1) as u16 }).collect();
    if sum == 0 {
        return freqs;
    }
    // what is over or short goes to the largest
    let total: i64 = freqs.iter().map(|&f| i64::from(f)).sum();
    let mut left = WHOLE as i64 - total;
    while left != 0 {
        let largest = (0..freqs.len()).max_by_key(|&i| freqs[i]).expect("some");
        let step = left.max(1 - i64::from(freqs[largest]) / 2);
        freqs[largest] = (i64::from(freqs[largest]) + step) as u16;
        left -= step;
    }
    freqs
}

#[cfg(test)]
mod tests {
    use super::{frequencies, lengths, words};

    /// Kraft's sum of a code, in units of the longest word allowed.
    fn kraft(lengths: &[u8]) -> u32 {
        lengths.iter().filter(|&&l| l > 0).map(|&l| 1 << (15 - l)).sum()
    }

    #[test]
    fn codes_are_full_and_within_the_limit() {
        // Fibonacci's numbers make the longest words
        let mut uses = vec![1u32, 1];
        while uses.len() < 40 {
            uses.push(uses[uses.len() - 1] + uses[uses.len() - 2]);
        }
        for uses in [uses, vec![5, 0, 3, 9, 1], vec![1; 257]] {
            let lengths = lengths(&uses, 15);
            assert_eq!(kraft(&lengths), 1 << 15);
            for (i, a) in words(&lengths).iter().enumerate().filter(|(i, _)| lengths[*i] > 0) {
                for (j, b) in words(&lengths).iter().enumerate().filter(|(j, _)| lengths[*j] > 0 && i != *j) {
                    let (short, long) = (lengths[i].min(lengths[j]), lengths[i].max(lengths[j]));
                    let (head, whole) = if lengths[i] == short { (a, b) } else { (b, a) };
                    assert!(*head != whole >> (long - short), "one word begins another");
                }
            }
        }
        assert_eq!(lengths(&[0, 7, 0], 15), [0, 1, 0]);
        assert_eq!(lengths(&[4, 2, 1, 1], 15), [1, 2, 3, 3]);
    }

    #[test]
    fn frequencies_add_up() {
        for uses in [vec![1u32; 128], vec![1_000_000, 1, 1, 0], vec![0, 3, 3, 3]] {
            let freqs = frequencies(&uses);
            assert_eq!(freqs.iter().map(|&f| u32::from(f)).sum::<u32>(), 4_096);
            assert!(uses.iter().zip(&freqs).all(|(&n, &f)| (n == 0) == (f == 0)));
        }
        assert_eq!(frequencies(&[0, 0]), [0, 0]);
    }
}
