//! Tokens out and back: answers of the standard's contexts worked out by hand, round trips, and every refusal.
use rdoq::{read_lists, read_tokens, write_tokens, Book, BookBuilder, Refusal, Shape, Token, TokenBuffer, CONTEXTS, SYMBOLS};

const SHAPE: Shape = Shape { cx: 1, cy: 1, strategy: 0, channel: 1, qf_hi: false, predicted: 0 };

fn book(config: [u8; 3]) -> Book {
    BookBuilder::new(vec![0; CONTEXTS], &[config]).symbol_prices(vec![1.0; SYMBOLS]).fill().unwrap()
}

fn scan(n: u32) -> Vec<u32> {
    (0..n).collect()
}

fn levels(at: &[(usize, i32)]) -> [i32; 64] {
    let mut levels = [0; 64];
    for &(place, level) in at {
        levels[place] = level;
    }
    levels
}

#[test]
fn tokens_by_hand() {
    // 3 at position 1, -1 at 3, 20 at 4: three nonzero levels, 37 splits under 4,2,0 into 16 + 1 * 4 + 0 and 3 bits of 5.
    let block = levels(&[(0, 99), (1, 3), (3, -1), (4, 20)]);
    let tokens = write_tokens(&book([4, 2, 0]), SHAPE, &scan(64), &block).unwrap();
    let token = |context, symbol, extra_bits, bits| Token { context, symbol, extra_bits, bits };
    // Contexts: the count's is bucket 0 of block context 0; a level's 1110 + 2 * (remaining + frequency) + prev, the first prev being 1.
    let expected = [
        token(0, 3, 0, 0),
        token(1110 + 2 * 62 + 1, 6, 0, 0),
        token(1110 + 2 * (31 + 1) + 1, 0, 0, 0),
        token(1110 + 2 * (31 + 2), 1, 0, 0),
        token(1110 + 2 * 3 + 1, 21, 3, 0),
    ];
    assert_eq!(tokens, expected);
}

#[test]
fn an_empty_block_has_one_token() {
    let book = book([4, 2, 0]);
    let tokens = write_tokens(&book, SHAPE, &scan(64), &[0; 64]).unwrap();
    assert_eq!(tokens, [Token::default()]);
    let mut old = [9; 64];
    assert_eq!(read_tokens(&book, SHAPE, &scan(64), &tokens, &mut old), Ok(1));
    assert_eq!(old, levels(&[(0, 9)]));
}

#[test]
fn the_ends_of_the_range_go_there_and_back() {
    let book = book([4, 2, 0]);
    let mut buffer = TokenBuffer::new();
    for level in [32_768, -32_768, 1, -1] {
        let block = levels(&[(63, level), (5, -level)]);
        assert_eq!(buffer.write(&book, SHAPE, &scan(64), &block), Ok(64));
        assert_eq!(buffer.len(), buffer.tokens().len());
        let mut restored = [7; 64];
        restored[0] = 0;
        assert_eq!(buffer.read(&book, SHAPE, &scan(64), &mut restored), Ok(64));
        assert_eq!(restored, block);
    }
}

#[test]
fn the_buffer_is_used_again() {
    let book = book([4, 2, 0]);
    let large = Shape { cx: 2, cy: 2, strategy: 4, ..SHAPE };
    let mut buffer = TokenBuffer::new();
    let mut block = vec![1; 256];
    assert_eq!(buffer.write(&book, large, &scan(256), &block), Ok(253));
    let place = buffer.symbols().as_ptr();
    block.truncate(64);
    assert_eq!(buffer.write(&book, SHAPE, &scan(64), &block), Ok(64));
    assert_eq!(buffer.symbols().as_ptr(), place);
    assert_eq!(format!("{buffer:?}"), "TokenBuffer { tokens: [64] }");
    assert_eq!(buffer.write(&book, SHAPE, &scan(64), &[1; 63]), Err(Refusal::BlockLength));
    assert!(buffer.is_empty());
}

#[test]
fn refusals_of_writing() {
    let plain = book([4, 2, 0]);
    let write = |shape, scan: &[u32], levels: &[i32]| write_tokens(&plain, shape, scan, levels).unwrap_err();
    let one = [1; 64];
    assert_eq!(write(Shape { cx: 3, ..SHAPE }, &scan(64), &one), Refusal::BlockSide);
    assert_eq!(write(SHAPE, &scan(63), &one), Refusal::BlockLength);
    assert_eq!(write(Shape { strategy: 27, ..SHAPE }, &scan(64), &one), Refusal::Strategy);
    assert_eq!(write(Shape { channel: 3, ..SHAPE }, &scan(64), &one), Refusal::Strategy);
    assert_eq!(write(Shape { strategy: 4, ..SHAPE }, &scan(64), &one), Refusal::Sides);
    assert_eq!(write(SHAPE, &[0; 64], &one), Refusal::Scan);
    assert_eq!(write(SHAPE, &scan(64), &levels(&[(9, 32_769)])), Refusal::TokenLevel);
    // 24 comes before 20; the first c levels are not looked at.
    let wide = book([5, 2, 2]);
    assert_eq!(write_tokens(&wide, SHAPE, &scan(64), &levels(&[(9, -32_769), (3, 1_024)])), Err(Refusal::TokenLevel));
    assert_eq!(write_tokens(&wide, SHAPE, &scan(64), &levels(&[(3, 1_024)])), Err(Refusal::TokenSplit));
    assert!(write_tokens(&wide, SHAPE, &scan(64), &levels(&[(3, 1_023), (0, i32::MIN)])).is_ok());
}

#[test]
fn refusals_of_reading() {
    let book = book([4, 2, 0]);
    let kept = levels(&[(0, 5), (7, -6), (63, 8)]);
    let read = |symbols: &[u32], bits: &[u32]| {
        let mut levels = kept;
        let reply = read_lists(&book, SHAPE, &scan(64), symbols, bits, &mut levels);
        if reply.is_err() {
            assert_eq!(levels, kept);
        }
        reply
    };
    assert_eq!(read(&[0], &[]), Err(Refusal::TokenLists));
    assert_eq!(read(&[], &[]), Err(Refusal::TokenLists));
    assert_eq!(read(&[128], &[0]), Err(Refusal::TokenSplit));
    // below 2^4 a symbol has no extra bits; 16 has 2; 16 + 4 * 13 is the first of 18 bits
    assert_eq!(read(&[3], &[1]), Err(Refusal::TokenSplit));
    assert_eq!(read(&[16], &[4]), Err(Refusal::TokenSplit));
    assert_eq!(read(&[68], &[0]), Err(Refusal::TokenSplit));
    // 64 nonzero levels: 16 + 4 * 2, 4 extra bits
    assert_eq!(read(&[24], &[0]), Err(Refusal::TokenCount));
    assert_eq!(read(&[1], &[0]), Err(Refusal::TokenLists));
    assert_eq!(read(&[1, 2, 2], &[0, 0, 0]), Err(Refusal::TokenLists));
    // 65,536 is 32,768; the next value is beyond
    assert_eq!(read(&[1, 64], &[0, 0]), Ok(2));
    assert_eq!(read(&[1, 64], &[0, 1]), Err(Refusal::TokenLevel));
    // two owed and one position left
    let mut symbols = vec![2];
    symbols.extend([0; 62]);
    assert_eq!(read(&symbols, &vec![0; symbols.len()]), Err(Refusal::LevelsOwed));
    let damaged = Shape { cx: 2, ..SHAPE };
    assert_eq!(read_lists(&book, damaged, &scan(64), &[0], &[0], &mut [0; 64]), Err(Refusal::BlockLength));
}
