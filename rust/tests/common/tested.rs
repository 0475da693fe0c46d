//! The order in which each call tests its numbers, written from documents 01 and 02: of several that apply, the first in
//! this order is the answer. Whatever decides between several numbers takes the order from here, and nothing leans on the
//! numbers rising. Examples worked by hand tell their number themselves, so that a wrong list shows.

/// What a call returns that refuses nothing.
pub const ACCEPTED: u32 = 0;

/// Reading a task sheet. Which lists 16 speaks of hangs on the pairs, so it comes behind 17.
pub const READING: [u32; 8] = [10, 11, 12, 13, 14, 15, 17, 16];

/// Planning, which reads first: these stand behind those of reading.
pub const PLANNING: [u32; 2] = [20, 21];

/// Pricing, which reads first: this stands behind those of reading. Asking for the row is refused alike.
pub const PRICING: [u32; 1] = [22];

/// Judging a plan, which reads first: these stand behind those of reading.
pub const JUDGING: [u32; 5] = [30, 31, 32, 33, 34];

pub const WRITING_A_PLAN: [u32; 2] = [12, 21];

pub const READING_A_PLAN: [u32; 2] = [12, 30];

/// The number that a call answers with; no later one is asked about.
pub fn first_applying(order: &[u32], mut applies: impl FnMut(u32) -> bool) -> Option<u32> {
    order.iter().copied().find(|&number| applies(number))
}

/// Every number that applies, the answer first.
pub fn all_applying(order: &[u32], mut applies: impl FnMut(u32) -> bool) -> Vec<u32> {
    let numbers = order.iter().copied();
    numbers.filter(|&number| applies(number)).collect()
}

/// These numbers, all of which the call tests, as it tests them.
pub fn in_order(order: &[u32], numbers: &[u32]) -> Vec<u32> {
    let place = |number: &u32| {
        let place = order.iter().position(|tested| tested == number);
        place.unwrap_or_else(|| panic!("{number} is none of {order:?}"))
    };
    let mut numbers = numbers.to_vec();
    numbers.sort_by_key(place);
    numbers
}

/// All of these numbers but the one that is tested last, and so has no later one.
pub fn all_but_the_last(order: &[u32]) -> &[u32] {
    &order[..order.len() - 1]
}

/// Every two of these numbers, with the one that is tested earlier in front.
pub fn every_two(order: &[u32]) -> Vec<(u32, u32)> {
    let with_later = |(place, &earlier): (usize, &u32)| {
        let later = order[place + 1..].iter();
        later.map(move |&later| (earlier, later))
    };
    order.iter().enumerate().flat_map(with_later).collect()
}
