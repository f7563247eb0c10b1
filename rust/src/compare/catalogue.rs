//! Random corrections over random standing catalogues: the number, the block, the offset and the length.

use super::{equal, Counts, Difference};
use crate::catalogue::Catalogue;
use crate::packed::{Interface, Model, Place};
use crate::random::Random;

/// One board sought by both sides.
pub fn case(other: &dyn Interface, random: &mut Random, counts: &mut Counts) -> Result<(), Difference> {
    let base = random.pick(&[0, 1, 40, u32::MAX - 40]);
    let (corrections, standing) = (draw(random, base, 5), draw(random, base, 9));
    let board = draw_board(random, &corrections, &standing);
    let ask = |side: &dyn Interface| side.place(board, &corrections, &standing);
    let (model, other) = (ask(&Model), ask(other));
    counts.add(format!("refused {}", model.number));
    counts.add(kind(&model, board, &corrections, &standing));
    let inputs = || format!("board {board} in {corrections:?} over {standing:?}");
    equal(&model, &other, inputs, |place| format!("{place:?}"))
}

/// What kind of answer it is.
fn kind(place: &Place, board: u32, corrections: &Catalogue, standing: &Catalogue) -> &'static str {
    let stands = standing.boards.contains(&board);
    match place.number {
        0 if place.length == 0 => "found, of no bytes",
        0 if place.corrected == 1 && stands => "corrected over a standing one",
        0 if place.corrected == 1 => "corrected, none standing",
        0 => "standing",
        41 if standing.boards.windows(2).any(|pair| pair[1] <= pair[0]) => {
            "41 of the corrections, 40 of the others"
        }
        41 if wraps(corrections) || wraps(standing) => "a sum that is right in 32 bits only",
        40..=41 if stands || corrections.boards.contains(&board) => "refused, though the board is listed",
        _ => "refused",
    }
}

/// The lengths sum to the block in 32 bits, but not beyond.
pub fn wraps(catalogue: &Catalogue) -> bool {
    let sum = catalogue.lengths.iter().map(|&length| u64::from(length)).sum::<u64>();
    sum as u32 as usize == catalogue.block.len() && sum > u64::from(u32::MAX)
}

/// A catalogue of up to `most` boards from `base` on, now and then of many; one in six is damaged.
fn draw(random: &mut Random, base: u32, most: usize) -> Catalogue {
    let most = if random.once_in(200) { 300 } else { most };
    let mut boards = Vec::new();
    let mut next = u64::from(base) + random.below(3) as u64;
    for _ in 0..random.below(most + 1) {
        boards.extend(u32::try_from(next));
        next += random.between(1, 3) as u64;
    }
    let lengths: Vec<u32> = boards.iter().map(|_| random.below(5) as u32).collect();
    let block = (0..lengths.iter().sum()).map(|_| random.byte()).collect();
    let mut catalogue = Catalogue { block, boards, lengths };
    if random.once_in(6) {
        damage(random, &mut catalogue);
    }
    catalogue
}

/// A board is repeated or moved; a length is lost, put in or changed; the block is longer or shorter; the sum runs over
/// 32 bits.
fn damage(random: &mut Random, catalogue: &mut Catalogue) {
    let Catalogue { block, boards, lengths } = catalogue;
    if boards.is_empty() {
        return block.push(1);
    }
    let place = random.below(boards.len());
    match random.below(12) {
        0..=2 if place > 0 => boards[place] = boards[place - 1],
        3 | 4 if place > 0 => boards.swap(place, place - 1),
        5 => boards[place] = random.below(60) as u32,
        6 => drop(lengths.remove(place)),
        7 => lengths.insert(place, 0),
        8 => lengths[place] = lengths[place].wrapping_sub(1),
        9 if !block.is_empty() => drop(block.pop()),
        10 | 11 if place > 0 => over(&mut lengths[place - 1..=place]),
        _ => block.push(random.byte()),
    }
}

/// Two lengths with the same sum as before in 32 bits, and more by 2^32.
fn over(pair: &mut [u32]) {
    pair[1] = pair[1].wrapping_add(pair[0]).wrapping_add(1);
    pair[0] = u32::MAX;
}

/// A board that is listed, or close to one, or any.
fn draw_board(random: &mut Random, corrections: &Catalogue, standing: &Catalogue) -> u32 {
    let listed = if random.once_in(2) { &corrections.boards } else { &standing.boards };
    if listed.is_empty() || random.once_in(20) {
        return random.bits() as u32;
    }
    let board = random.pick(listed);
    match random.below(6) {
        0 => board.wrapping_add(1),
        1 => board.wrapping_sub(1),
        _ => board,
    }
}
