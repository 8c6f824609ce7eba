use rdoq::{input_cost, rdoq_block, Bias, Block, BookBuilder, Refusal, Room, Search, Settings, Shape, CONTEXTS, SYMBOLS};

fn main() -> Result<(), Refusal> {
    // once for each entropy code: a price for every symbol, here of one cluster with split 4,2,0
    let prices = (0..SYMBOLS).map(|symbol| 1.0 + 0.25 * symbol as f32).collect();
    let book = BookBuilder::new(vec![0; CONTEXTS], &[[4, 2, 0]]).symbol_prices(prices).fill()?;
    // once for each thread
    let mut room = Room::new();

    // for each block
    let scan: Vec<u32> = (0..64).collect();
    let source: Vec<f32> = (0..64).map(|i| 5.9 / (1.0 + i as f32)).collect();
    let mut levels: Vec<i32> = source.iter().map(|x| x.round() as i32).collect();
    let block = Block {
        shape: Shape { cx: 1, cy: 1, strategy: 0, channel: 1, qf_hi: false, predicted: 4 },
        settings: Settings { lambda: 0.1, ..Settings::default() },
        bias: Bias::default(),
        scale: 1.0,
        scan: &scan,
        source: &source,
        inv_qm: &[1.0; 64],
    };
    let before = input_cost(&book, &block, &levels)?.cost;
    match rdoq_block(Search::Trellis, &book, &block, &mut levels, &mut room) {
        Ok(answer) => {
            let after = answer.cost.unwrap_or(before); // greedy answers none
            println!("{} nonzero levels, cost {after:.4}; {before:.4} before, {:.4} saved", answer.count, before - after);
        }
        Err(refusal) => println!("{refusal}; every level is as it was"),
    }
    Ok(())
}
