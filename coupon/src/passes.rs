//! The passes over a picture: search, write, count, and the second run that replaces tokens.
use crate::coded::{nonzeros, Cells, Coded, CodedGroup, Part};
use rdoq::{
    pack_signed, rdoq_block, rdoq_group, small, Bias, Block, Book, GroupBlock, Refusal, Room, Search, Settings, Stopped, Tally, Token, TokenBuffer, TokenStore,
};

/// What bits weigh against distortion. The channels' weights are this program's own.
#[derive(Clone, Copy, Debug)]
pub struct Weighing {
    pub lambda: f32,
    pub penalty: f32,
    pub distance: f32,
    pub half_width: u32,
}

impl Weighing {
    pub fn settings(&self) -> Settings {
        let Weighing { lambda, penalty, distance, half_width } = *self;
        Settings { lambda, penalty, distance, half_width, ..Settings::default() }
    }
}

/// A block of the list that `rdoq_group` takes.
fn listed<'a>(coded: &'a Coded, group: &'a CodedGroup, part: &Part, weighing: Weighing) -> GroupBlock<'a> {
    let kind = coded.kind(part);
    let shape = part.shape(0);
    GroupBlock {
        x: part.square.x as u32,
        y: part.square.y as u32,
        cx: shape.cx,
        cy: shape.cy,
        strategy: shape.strategy,
        channel: part.channel,
        qf_hi: shape.qf_hi,
        settings: weighing.settings(),
        bias: Bias::DEFAULT[usize::from(part.channel)],
        scale: coded.scale,
        scan: &kind.scan,
        source: &group.source[part.from..part.from + part.size()],
        inv_qm: &kind.inverse,
    }
}

/// Searches a group's blocks in order, from plain quantisation on.
pub fn search_group(
    coded: &Coded, group: &CodedGroup, book: &Book, search: Search, weighing: Weighing, room: &mut Room,
) -> (Vec<i32>, Result<u32, Stopped>) {
    let list: Vec<GroupBlock<'_>> = group.parts.iter().map(|part| listed(coded, group, part, weighing)).collect();
    let mut levels = group.quantised.clone();
    let answer = rdoq_group(search, book, &list, &mut levels, room);
    (levels, answer)
}

/// The levels of each group after a search. Every block has to be settled.
pub fn search_all(coded: &Coded, book: &Book, search: Search, weighing: Weighing) -> Result<Vec<Vec<i32>>, Refusal> {
    let mut room = Room::new();
    let searched = coded.groups.iter().map(|group| {
        let (levels, answer) = search_group(coded, group, book, search, weighing, &mut room);
        answer?;
        Ok(levels)
    });
    searched.collect()
}

/// Block by block, with the prediction worked out here, so that a refused block keeps its levels and the next ones go on. Answers which were refused.
pub fn search_each(
    coded: &Coded, group: &CodedGroup, book: &Book, search: Search, weighing: Weighing, levels: &mut [i32],
) -> Vec<(Part, Refusal)> {
    let (mut room, mut cells, mut refused) = (Room::new(), Cells::new(), Vec::new());
    for part in &group.parts {
        let GroupBlock { settings, bias, scale, scan, source, inv_qm, .. } = listed(coded, group, part, weighing);
        let block = Block { shape: part.shape(cells.predicted(part)), settings, bias, scale, scan, source, inv_qm };
        if let Err(refusal) = rdoq_block(search, book, &block, &mut levels[part.from..part.from + part.size()], &mut room) {
            refused.push((*part, refusal));
        }
        cells.settle(part, nonzeros(part, scan, levels));
    }
    refused
}

/// The levels of each group after a search of the small product, which takes blocks of one or two covered blocks and has no call for a group.
pub fn search_small(coded: &Coded, book: &Book, search: Search, weighing: Weighing) -> Result<Vec<Vec<i32>>, Refusal> {
    let mut room = small::room();
    let Settings { channel_weight, lambda, penalty, distance, .. } = weighing.settings();
    let settings = small::Settings { channel_weight, lambda, penalty, distance };
    let searched = coded.groups.iter().map(|group| {
        let (mut levels, mut cells) = (group.quantised.clone(), Cells::new());
        for part in &group.parts {
            let GroupBlock { bias, scale, scan, source, inv_qm, .. } = listed(coded, group, part, weighing);
            let block = small::Block { shape: part.shape(cells.predicted(part)), settings, bias, scale, scan, source, inv_qm };
            let answer = small::rdoq_small_block(search, book, &block, &mut levels[part.from..part.from + part.size()], &mut room)?;
            cells.settle(part, answer.count as usize);
        }
        Ok(levels)
    });
    searched.collect()
}

/// A block's tokens: what a coder writes, and the context and value of each, as a tally and a price take them.
pub struct Written {
    pub tokens: Vec<Token>,
    pub contexts: Vec<u32>,
    pub values: Vec<u32>,
}

impl Written {
    /// The tokens as the numbers that a store keeps.
    pub fn packed(&self) -> Vec<u64> {
        let pack = |t: &Token| u64::from(t.context) << 48 | u64::from(t.symbol) << 40 | u64::from(t.extra_bits) << 32 | u64::from(t.bits);
        self.tokens.iter().map(pack).collect()
    }

    /// What they cost by a book.
    pub fn bits(&self, book: &Book) -> Result<f64, Refusal> {
        let prices = self.contexts.iter().zip(&self.values).map(|(&context, &value)| book.token_bits(context, value).map(f64::from));
        prices.sum()
    }
}

/// A token as it stands in a store.
pub fn unpacked(token: u64) -> Token {
    Token { context: (token >> 48) as u32, symbol: (token >> 40) as u32 & 255, extra_bits: (token >> 32) as u32 & 255, bits: token as u32 }
}

/// The values that a block's tokens stand for: the count, then each level from scan position c on until none is left.
fn values(part: &Part, scan: &[u32], levels: &[i32], tokens: usize) -> Result<Vec<u32>, Refusal> {
    let coded = scan[part.square.covered()..].iter().map(|&at| pack_signed(levels[part.from + at as usize]));
    std::iter::once(Ok(nonzeros(part, scan, levels) as u32)).chain(coded).take(tokens).collect()
}

/// Writes a group's tokens, block by block, with the prediction that a decoder will make.
pub fn write_group(coded: &Coded, group: &CodedGroup, book: &Book, levels: &[i32]) -> Result<Vec<Written>, Refusal> {
    let (mut buffer, mut cells) = (TokenBuffer::new(), Cells::new());
    let written = group.parts.iter().map(|part| {
        let scan = &coded.kind(part).scan;
        let count = buffer.write(book, part.shape(cells.predicted(part)), scan, &levels[part.from..part.from + part.size()])?;
        cells.settle(part, nonzeros(part, scan, levels));
        Ok(Written {
            tokens: buffer.tokens().collect(),
            contexts: buffer.contexts().to_vec(),
            values: values(part, scan, levels, count)?,
        })
    });
    written.collect()
}

/// All tokens of a picture.
pub fn write_all(coded: &Coded, book: &Book, levels: &[Vec<i32>]) -> Result<Vec<Vec<Written>>, Refusal> {
    coded.groups.iter().zip(levels).map(|(group, levels)| write_group(coded, group, book, levels)).collect()
}

/// A tally of tokens, from nothing.
pub fn tally_of(book: &Book, written: &[Vec<Written>]) -> Result<Tally, Refusal> {
    let mut tally = Tally::new(book.clusters() as usize);
    for block in written.iter().flatten() {
        tally.add(book, &block.contexts, &block.values)?;
    }
    Ok(tally)
}

/// What all tokens cost by a book.
pub fn bits_of(book: &Book, written: &[Vec<Written>]) -> Result<f64, Refusal> {
    written.iter().flatten().map(|block| block.bits(book)).sum()
}

/// The tokens of a picture as they wait for the coder: a store for each channel of each group, since a store has at most 1,024 runs.
pub struct Kept {
    stores: Vec<[TokenStore; 3]>,
    pub tally: Tally,
}

impl Kept {
    /// Room for the tokens given and a quarter more.
    pub fn new(book: &Book, written: &[Vec<Written>], coded: &Coded) -> Result<Kept, Refusal> {
        let room = |group: usize, channel: u8| {
            let of_channel = coded.groups[group].parts.iter().zip(&written[group]).filter(|(part, _)| part.channel == channel);
            let tokens: usize = of_channel.map(|(_, block)| block.tokens.len()).sum();
            TokenStore::new(tokens + tokens / 4)
        };
        let stores = (0..written.len()).map(|group| [room(group, 0), room(group, 1), room(group, 2)]).collect();
        let mut kept = Kept { stores, tally: Tally::new(book.clusters() as usize) };
        for (group, blocks) in written.iter().enumerate() {
            for (index, block) in blocks.iter().enumerate() {
                kept.put(coded, group, index, block)?;
                kept.tally.add(book, &block.contexts, &block.values)?;
            }
        }
        Ok(kept)
    }

    /// Blocks of a channel are numbered in their order.
    fn put(&mut self, coded: &Coded, group: usize, index: usize, block: &Written) -> Result<(), Refusal> {
        let channel = coded.groups[group].parts[index].channel;
        self.stores[group][usize::from(channel)].put((index / 3) as u32, &block.packed())
    }

    /// Puts a block's new tokens in place of its old ones, in the store and in the tally.
    pub fn replace(&mut self, book: &Book, coded: &Coded, (group, index): (usize, usize), old: &Written, new: &Written) -> Result<(), Refusal> {
        self.put(coded, group, index, new)?;
        self.tally.remove(book, &old.contexts, &old.values)?;
        self.tally.add(book, &new.contexts, &new.values)
    }

    /// A block's tokens as they are kept.
    pub fn get(&self, coded: &Coded, group: usize, index: usize) -> Result<Vec<Token>, Refusal> {
        let channel = coded.groups[group].parts[index].channel;
        Ok(self.stores[group][usize::from(channel)].get((index / 3) as u32)?.into_iter().map(unpacked).collect())
    }
}
