//! Searches for one byte.

use super::Random;
use crate::comparison::{Memory, Search, LONGEST};
use std::iter;

/// Bytes for which careless tricks with whole words go wrong.
const EDGES: [u8; 6] = [0x00, 0x01, 0x7f, 0x80, 0xfe, 0xff];

/// Starts that wrong sums or 32 bits would bring back into the slice.
const FAR: [usize; 4] = [1 << 32, 1 << 63, usize::MAX - 7, usize::MAX];

/// Length, start and offset.
type Shape = [usize; 3];

/// First with the byte sought at every place alone, the two past the end included
/// (the first of them is the answer if there is none), then at several places or
/// nowhere without end. Always the same for the same seed.
pub fn searches(seed: u64) -> impl Iterator<Item = Search> {
    let mut random = Random::new(seed);
    let alone = shapes().flat_map(|shape| (0..shape[0] + 2).map(move |place| (shape, Some(place))));
    let several = iter::repeat_with(shapes).flatten();
    let all = alone.chain(several.map(|shape| (shape, None)));
    all.map(move |(shape, alone)| {
        let several = drawn_places(&mut random, shape[0]);
        drawn(
            &mut random,
            shape,
            &alone.map_or(several, |place| vec![place]),
        )
    })
}

/// Every length with every start up to one past the end and some far past it, at every
/// offset.
fn shapes() -> impl Iterator<Item = Shape> {
    let starts = |length| (0..=length + 1).chain(FAR).map(move |from| (length, from));
    let starts = (0..=LONGEST).flat_map(starts);
    starts.flat_map(|(length, from)| (0..8).map(move |offset| [length, from, offset]))
}

/// In the slice or a little past it; often side by side.
fn drawn_places(random: &mut Random, length: usize) -> Vec<usize> {
    let [a, b, c] = [(); 3].map(|_| random.below(length as u64 + 4) as usize);
    match random.below(4) {
        0 => vec![],
        1 => vec![a, a + 1],
        _ => vec![a, b, c],
    }
}

/// The byte sought at these places of the slice and of what lies beyond it, and
/// others all around: all the same, or each by itself.
fn drawn(random: &mut Random, [length, from, offset]: Shape, places: &[usize]) -> Search {
    let any = random.bits() as u8;
    let edge = random.pick(&EDGES);
    let sought = random.pick(&[any, edge]);
    let mut memory = Memory([other(random, sought); Memory::SIZE]);
    if random.once_in(2) {
        memory.0.fill_with(|| other(random, sought));
    }
    let onwards = memory.slice(offset, LONGEST + 8);
    places.iter().for_each(|place| onwards[*place] = sought);
    Search {
        memory,
        offset,
        length,
        from,
        sought,
    }
}

/// Not the one sought, but mostly off by one bit or by 1, or in every bit.
fn other(random: &mut Random, sought: u8) -> u8 {
    let bit = sought ^ (1 << random.below(8));
    let any = random.between(1, 255) as u8;
    let [any, more, less] = [any, 1, 255].map(|off| sought.wrapping_add(off));
    random.pick(&[bit, bit, bit, any, more, less, !sought])
}

#[cfg(test)]
mod tests {
    use super::*;
    use crate::comparison::{compare, goals};
    use crate::plan::Plan;
    use crate::side::Reference;
    use std::collections::HashSet;

    #[test]
    fn every_goal_is_reached() {
        let calls = Plan::DEFAULT.searches;
        let tally = compare(goals::of_search(), searches(1), calls, &Reference).unwrap();
        assert_eq!(tally.unreached(), [""; 0]);
    }

    #[test]
    fn the_byte_sought_is_at_every_place_alone() {
        let mut alone = HashSet::new();
        for mut search in searches(7).take(Plan::DEFAULT.searches as usize) {
            let onwards = search.memory.slice(search.offset, LONGEST + 8);
            let held = |place: &usize| onwards[*place] == search.sought;
            if let [place] = (0..LONGEST + 8).filter(held).collect::<Vec<_>>()[..] {
                alone.insert([search.length, search.from, search.offset, place]);
            }
        }
        for length in 0..=64 {
            for from in (0..=length + 1).chain([1 << 32, usize::MAX]) {
                let places = (0..length + 2).flat_map(|place| (0..8).map(move |at| (at, place)));
                for (offset, place) in places {
                    assert!(alone.contains(&[length, from, offset, place]));
                }
            }
        }
    }
}
