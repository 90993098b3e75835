//! The wish of a map's first block: what became of it, by the words that the call left. Whether the old choice would have been another one, and why a wish was not met, is counted in record files of style grow.
use crate::kernel::World;
use crate::random::Random;

/// What lists of calls must reach.
pub const CASES: [&str; 6] = [
    "no_wish_at_page_0",
    "no_wish_page_before_unmapped",
    "wish_met",
    "wish_met_though_a_lower_frame_is_free",
    "wish_not_met",
    "wish_past_the_pool",
];

/// What became of the wish, after an accepted map. The call does not alter the page before the span.
pub fn first_wish(world: &World, space: u32, first: u32) -> &'static str {
    let pages = world.space_pages(space);
    if first == 0 {
        return "no_wish_at_page_0";
    }
    let before = pages[first as usize - 1];
    if before == 0 {
        return "no_wish_page_before_unmapped";
    }
    let wish = before % 4096 + 1;
    let taken = pages[first as usize] % 4096;
    if taken != wish {
        return if wish == world.control[0] { "wish_past_the_pool" } else { "wish_not_met" };
    }
    let free = |w: &u32| *w == 8192 || (16384..=16394).contains(w);
    if world.frames[..wish as usize].iter().any(free) {
        "wish_met_though_a_lower_frame_is_free"
    } else {
        "wish_met"
    }
}

/// An unmapped page just after a mapped one, if there is one: a map from there on extends what is mapped.
pub fn page_to_grow(r: &mut Random, world: &World, space: u32) -> Option<u32> {
    if space > 3 || world.pages.len() != 4096 {
        return None;
    }
    let pages = world.space_pages(space);
    let from = r.below(1023) as usize;
    let grows = |p: &usize| pages[p - 1] >= 65536 && pages[*p] == 0;
    (0..1023).map(|i| 1 + (from + i) % 1023).find(grows).map(|p| p as u32)
}
