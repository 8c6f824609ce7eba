//! How often each rule of the definitions decides: the plain searches with one rule broken, on the same blocks.

use crate::data::{window, Block, SEARCHES};
use crate::plain::{Problem, Rule, RULES};
use crate::{checks, made, Options};

/// Whether an ideal that may be restored is an exact half.
pub fn has_half(block: &Block) -> bool {
    let c = block.covered();
    let (_, restore) = window(c);
    block.scan[c..c + restore].iter().any(|&at| {
        let at = at as usize;
        (block.source[at] * block.inverse[at] * block.scale).fract().abs() == 0.5
    })
}

/// For each class and broken rule: on how many blocks each search then answers something else.
pub fn print(options: &Options) {
    println!("      c  broken rule         blocks     greedy       beam    trellis   (blocks on which the answer then differs)");
    for &class in options.classes.iter().filter(|&&class| class != 0) {
        let mut differ = vec![[0u64; 3]; RULES.len()];
        let mut judged = 0;
        for index in 0..options.blocks {
            let (book, block) = made(options.seed, class, index);
            if SEARCHES.iter().any(|&search| checks::refusal(search, &book, &block) != 0) {
                continue;
            }
            judged += 1;
            let right = SEARCHES.map(|search| Problem::new(&book, &block, Rule::Kept).run(search));
            for (at, &rule) in RULES.iter().enumerate() {
                for (which, &search) in SEARCHES.iter().enumerate() {
                    let other = Problem::new(&book, &block, rule).run(search);
                    differ[at][which] += u64::from(other != right[which]);
                }
            }
        }
        for (rule, [greedy, beam, trellis]) in RULES.iter().zip(&differ) {
            println!("{class:>7}  {:<18} {judged:>7} {greedy:>10} {beam:>10} {trellis:>10}", format!("{rule:?}"));
        }
    }
}
