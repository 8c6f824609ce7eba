//! The cost of a block's levels as they stand: the library's call beside the plain definitions and checks.

use crate::checks::refusal;
use crate::data::{Block, Book, Reply, Search, HALF_WIDTH};
use crate::plain::{Problem, Rule};
use crate::report::Inputs;

/// Holds the library to what is due; the story where it is not.
pub fn hold(counts: &mut Inputs, book: &Book, lent: &rdoq::Book, block: &Block) -> Option<String> {
    let (due, given) = (due(book, block), given(lent, block));
    counts.asked += 1;
    counts.finite += u64::from(matches!(due, Reply::Cost { bits, .. } if f32::from_bits(bits).is_finite()));
    counts.differences += u64::from(due != given);
    (due != given).then(|| format!("of the input the library says\n    {given}\n  due is\n    {due}"))
}

/// The book as the Rust crate holds it.
pub fn lent(book: &Book) -> rdoq::Book {
    rdoq::Book::from_parts(book.clusters, book.map.clone(), book.configs.clone(), book.symbols.clone(), book.ready.clone())
}

/// No room and no half-width is asked for: greedy's checks, with a half-width that passes.
fn due(book: &Book, block: &Block) -> Reply {
    let block = Block { half_width: HALF_WIDTH, ..block.clone() };
    match refusal(Search::Greedy, book, &block) {
        0 => {
            let (cost, count) = Problem::new(book, &block, Rule::Kept).cost(&block.levels);
            Reply::Cost { bits: cost.to_bits(), count: count as u32 }
        }
        number => Reply::Refused(number),
    }
}

fn given(book: &rdoq::Book, block: &Block) -> Reply {
    let shape = rdoq::Shape {
        cx: block.cx,
        cy: block.cy,
        strategy: block.strategy,
        channel: block.channel,
        qf_hi: block.quant_class,
        predicted: block.predicted,
    };
    let settings = rdoq::Settings {
        channel_weight: block.channel_weight,
        lambda: block.lambda,
        penalty: block.penalty,
        distance: block.distance,
        half_width: block.half_width,
    };
    let lists = rdoq::Block {
        shape,
        settings,
        bias: rdoq::Bias { one: block.one, numerator: block.numerator },
        scale: block.scale,
        scan: &block.scan,
        source: &block.source,
        inv_qm: &block.inverse,
    };
    match rdoq::input_cost(book, &lists, &block.levels) {
        Ok(it) => Reply::Cost { bits: it.cost.to_bits(), count: it.count },
        Err(refusal) => Reply::Refused(refusal.number().into()),
    }
}
