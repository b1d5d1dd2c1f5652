//! What the benchmarks about trees share: trees drawn at random, and lists that are damaged or too short.

use crate::common::Draw;

pub const MOST_ENTRIES: usize = 4096;

/// A tree of so many nodes, every shape as likely as any other.
pub fn random_tree(draw: &mut Draw, nodes: usize, symbols: usize) -> Vec<u16> {
    // Below the root each node opens once and closes once, and the last bar is the root's. Of the rotations of such a
    // list exactly one never closes more than it has opened before its end.
    let mut opens: Vec<bool> = (1..2 * nodes).map(|i| i < nodes).collect();
    draw.shuffle(&mut opens);
    let (mut depth, mut lowest, mut start) = (0, 0, 0);
    for (i, &open) in opens.iter().enumerate() {
        depth += if open { 1 } else { -1 };
        if depth < lowest {
            (lowest, start) = (depth, i + 1);
        }
    }
    opens.rotate_left(start % (2 * nodes - 1));
    opens.insert(0, true);
    opens.iter().map(|&open| if open { draw.between(1, symbols) } else { 0 }).collect()
}

/// A tree in which every node but the last has one child.
pub fn chain(draw: &mut Draw, nodes: usize, symbols: usize) -> Vec<u16> {
    (0..nodes).map(|_| draw.between(1, symbols)).chain(vec![0; nodes]).collect()
}

/// Removes, changes or adds one item, or cuts the list off.
pub fn damage<T: Copy>(draw: &mut Draw, list: &mut Vec<T>, with: &[T]) {
    let (at, with) = (draw.below(list.len() + 1), with[draw.below(with.len())]);
    match draw.below(4) {
        0 => list.truncate(at),
        1 => list.insert(at, with),
        _ if at == list.len() => list.push(with),
        2 => list[at] = with,
        _ => {
            list.remove(at);
        }
    }
}

/// How long a lent list is, where so much is needed: now and then it is too short, mostly by little.
pub fn room(draw: &mut Draw, length: usize) -> usize {
    match draw.below(8) {
        0 => draw.below(length + 1),
        1 => length.saturating_sub(1),
        2 => length,
        _ => length + draw.below(8),
    }
}
