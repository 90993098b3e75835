//! Soundness of the tables, and the calls on them.

use std::cmp::Ordering;

use crate::pool::{self, Block};
use crate::unit::Rules;
use crate::words::*;

/// What the check of the tables has found.
pub struct Facts {
    pub free: u32,
}

/// Refusals 1 and 2.
pub fn judge(b: &Buffers) -> Result<Facts, u32> {
    if !b.lengths_right() {
        return Err(1);
    }
    if !control_sound(&b.control) {
        return Err(2);
    }
    let size = b.pool_size();
    let free = pool::judge(&b.frames, size as usize).ok_or(2u32)?;
    let mut mapped = 0;
    for space in 0..SPACES as u32 {
        mapped += space_sound(b, space).ok_or(2u32)?;
    }
    // Each mapped page has its own held frame; equal numbers leave no held
    // frame whose page is missing.
    if mapped != size - free {
        return Err(2);
    }
    Ok(Facts { free })
}

fn control_sound(control: &[u32]) -> bool {
    let (size, removals, open) = (control[0], control[1], control[2]);
    if !(1..=4096).contains(&size) || open > 15 {
        return false;
    }
    (0..LOG).all(|place| {
        let at = record_at(place);
        let (space, first, count) = (control[at], control[at + 1], control[at + 2]);
        let used = removals >= LOG || (1..=removals).contains(&place);
        if used {
            space <= 3 && count >= 1 && first <= 1023 && count <= 1024 - first
        } else {
            space == 0 && first == 0 && count == 0
        }
    })
}

/// The first run at or after a page: its first page and the page after it. Runs
/// are told by the words without range bits.
fn next_run(pages: &[u32], from: usize) -> Option<(usize, usize)> {
    let mut base = from;
    while base + 16 <= SPAN && all_are(&pages[base..base + 16], 0) {
        base += 16;
    }
    base += pages[base..].iter().position(|&w| w != 0)?;
    let word = pages[base] & !IN_RANGE;
    // No run goes past frame 4,095.
    let most = (SPAN - base).min(4096 - frame_of(word) as usize);
    let length = pages[base..base + most]
        .iter()
        .zip(word..)
        .take_while(|(&w, run)| w & !IN_RANGE == *run)
        .count();
    Some((base, base + length))
}

/// The range of a run: BASE, LIMIT, OFFSET, rights.
fn range_of(base: usize, limit: usize, word: u32) -> [u32; 4] {
    let offset = frame_of(word).wrapping_sub(base as u32);
    [base as u32, limit as u32, offset, rights_of(word)]
}

/// Number of mapped pages, if the pages and ranges of the space are sound.
fn space_sound(b: &Buffers, space: u32) -> Option<u32> {
    let pages = b.space_pages(space);
    let ranges = b.space_ranges(space);
    let mut mapped = 0;
    let mut used = 0;
    let mut from = 0;
    while let Some((base, limit)) = next_run(pages, from) {
        // All words of a run have the rights of its first.
        let word = pages[base];
        if word >> 16 != 1 || !rights_allowed(rights_of(word)) || !b.is_open(space) {
            return None;
        }
        let length = limit - base;
        let first = frame_of(word) as usize;
        if first + length > b.pool_size() as usize {
            return None;
        }
        let owners = owner(space, base as u32)..;
        let held = &b.frames[first..first + length];
        let differ = held.iter().zip(owners).fold(0, |d, (w, o)| d | (w ^ o));
        let long = length >= THRESHOLD;
        let bit = if long { IN_RANGE } else { 0 };
        let wrong_bits = pages[base..limit].iter().fold(0, |d, w| d | (w ^ bit));
        if differ != 0 || wrong_bits & IN_RANGE != 0 {
            return None;
        }
        if long {
            if ranges[used..used + 4] != range_of(base, limit, word) {
                return None;
            }
            used += 4;
        }
        mapped += length as u32;
        from = limit;
    }
    if !all_are(&ranges[used..], 0) {
        return None;
    }
    Some(mapped)
}

/// Rebuilds the range bits and the range table of one space.
fn renew(pages: &mut [u32], ranges: &mut [u32]) {
    let mut used = 0;
    let mut from = 0;
    while let Some((base, limit)) = next_run(pages, from) {
        if limit - base >= THRESHOLD {
            ranges[used..used + 4].copy_from_slice(&range_of(base, limit, pages[base]));
            used += 4;
            pages[base..limit].iter_mut().for_each(|w| *w |= IN_RANGE);
        } else {
            pages[base..limit].iter_mut().for_each(|w| *w &= !IN_RANGE);
        }
        from = limit;
    }
    ranges[used..].fill(0);
}

fn space_known(space: u32) -> Result<(), u32> {
    if space > 3 {
        return Err(5);
    }
    Ok(())
}

/// Refusals 6 and 17. Both are judged before 8, so 17 is out of the order of the
/// numbers.
pub fn rights_given(rights: u32) -> Result<(), u32> {
    if rights_allowed(rights) {
        return Ok(());
    }
    Err(if rights > 7 { 6 } else { 17 })
}

fn span_inside(first: u32, count: u32) -> Result<(), u32> {
    if count == 0 || first as u64 + count as u64 > SPAN as u64 {
        return Err(8);
    }
    Ok(())
}

/// Refusals 6, 17 and 8, in this order.
fn rights_and_span(rights: u32, first: u32, count: u32, rules: &Rules) -> Result<(), u32> {
    let given = rights_given(rights);
    if rules.reserved_late && given == Err(17) {
        span_inside(first, count)?;
    }
    given?;
    span_inside(first, count)
}

fn space_open(b: &Buffers, space: u32) -> Result<(), u32> {
    if !b.is_open(space) {
        return Err(10);
    }
    Ok(())
}

fn span_mapped(b: &Buffers, space: u32, first: u32, count: u32) -> Result<(), u32> {
    let span = &b.space_pages(space)[first as usize..][..count as usize];
    if span.contains(&0) {
        return Err(12);
    }
    Ok(())
}

fn log_lasts(b: &Buffers) -> Result<(), u32> {
    if b.removals() == u32::MAX {
        return Err(15);
    }
    Ok(())
}

/// The words of one space, with the frames beside them.
fn part(b: &mut Buffers, space: u32) -> (&mut [u32], &mut [u32], &mut [u32]) {
    let s = space as usize;
    (
        &mut b.frames,
        &mut b.pages[SPAN * s..SPAN * (s + 1)],
        &mut b.ranges[TABLE * s..TABLE * (s + 1)],
    )
}

pub fn set_up_pool(b: &mut Buffers, size: u32) -> Outcome {
    if !b.lengths_right() {
        return Err(1);
    }
    if !(1..=4096).contains(&size) {
        return Err(4);
    }
    b.control.fill(0);
    b.control[0] = size;
    pool::set_up(&mut b.frames, size as usize);
    b.pages.fill(0);
    b.ranges.fill(0);
    Ok((0, 0))
}

pub fn open(b: &mut Buffers, space: u32) -> Outcome {
    judge(b)?;
    space_known(space)?;
    if b.is_open(space) {
        return Err(9);
    }
    b.control[2] |= 1 << space;
    Ok((0, 0))
}

pub fn close(b: &mut Buffers, space: u32) -> Outcome {
    judge(b)?;
    space_known(space)?;
    space_open(b, space)?;
    log_lasts(b)?;
    let (frames, pages, ranges) = part(b, space);
    let mut removed = 0;
    for &word in pages.iter().filter(|&&w| w != 0) {
        pool::free(frames, frame_of(word));
        removed += 1;
    }
    pages.fill(0);
    ranges.fill(0);
    b.control[2] &= !(1 << space);
    b.append(Removal {
        space,
        first: 0,
        count: SPAN as u32,
    });
    Ok((removed, 0))
}

/// The frame after that of the page just before the span, if that page is mapped;
/// its rights do not matter. Page 0 has none before it.
fn wished(b: &Buffers, space: u32, first: u32, rights: u32, rules: &Rules) -> Option<u32> {
    let before = match first {
        0 if rules.across && space > 0 => b.page(space - 1, SPAN as u32 - 1),
        0 => return None,
        _ => b.page(space, first - 1),
    };
    let other = rights_of(before) != rights;
    (before != 0 && !(rules.same_rights && other)).then(|| frame_of(before) + 1)
}

/// Maps a span; gives the blocks taken.
pub fn map_blocks(
    b: &mut Buffers,
    space: u32,
    first: u32,
    count: u32,
    rights: u32,
    rules: &Rules,
) -> Result<Vec<Block>, u32> {
    let facts = judge(b)?;
    space_known(space)?;
    rights_and_span(rights, first, count, rules)?;
    space_open(b, space)?;
    let span = &b.space_pages(space)[first as usize..][..count as usize];
    if span.iter().any(|&w| w != 0) {
        return Err(11);
    }
    if facts.free < count {
        return Err(14);
    }
    let size = b.pool_size() as usize;
    let wished = wished(b, space, first, rights, rules);
    let (frames, pages, ranges) = part(b, space);
    let blocks = pool::take(frames, size, count, wished, rules);
    let mut page = first;
    for block in &blocks {
        for frame in block.start..block.start + (1 << block.order) {
            // Planted bugs may take frames that are not free; their words stay.
            if is_free(frames[frame as usize]) {
                frames[frame as usize] = owner(space, page);
            }
            pages[page as usize] = page_word(frame, rights);
            page += 1;
        }
    }
    renew(pages, ranges);
    Ok(blocks)
}

pub fn map(
    b: &mut Buffers,
    space: u32,
    first: u32,
    count: u32,
    rights: u32,
    rules: &Rules,
) -> Outcome {
    let blocks = map_blocks(b, space, first, count, rights, rules)?;
    Ok((blocks.len() as u32, 0))
}

/// Used entries of a space's range table.
pub fn ranges_used(b: &Buffers, space: u32) -> u32 {
    let entries = b.space_ranges(space).chunks_exact(4);
    entries.filter(|e| !all_are(e, 0)).count() as u32
}

/// What map would answer, with the space's ranges afterwards; it is made on a
/// copy.
pub fn preview(
    b: &Buffers,
    space: u32,
    first: u32,
    count: u32,
    rights: u32,
    rules: &Rules,
) -> Outcome {
    let mut after = b.clone();
    let (blocks, _) = map(&mut after, space, first, count, rights, rules)?;
    let counted = if rules.ranges_before { b } else { &after };
    Ok((blocks, ranges_used(counted, space)))
}

pub fn unmap(b: &mut Buffers, space: u32, first: u32, count: u32) -> Outcome {
    judge(b)?;
    space_known(space)?;
    span_inside(first, count)?;
    space_open(b, space)?;
    span_mapped(b, space, first, count)?;
    log_lasts(b)?;
    let (frames, pages, ranges) = part(b, space);
    for word in &mut pages[first as usize..][..count as usize] {
        pool::free(frames, frame_of(*word));
        *word = 0;
    }
    renew(pages, ranges);
    b.append(Removal {
        space,
        first,
        count,
    });
    Ok((count, 0))
}

pub fn protect(
    b: &mut Buffers,
    space: u32,
    first: u32,
    count: u32,
    rights: u32,
    rules: &Rules,
) -> Outcome {
    judge(b)?;
    space_known(space)?;
    rights_and_span(rights, first, count, rules)?;
    space_open(b, space)?;
    span_mapped(b, space, first, count)?;
    log_lasts(b)?;
    let (_, pages, ranges) = part(b, space);
    let mut changed = 0;
    for word in &mut pages[first as usize..][..count as usize] {
        changed += (rights_of(*word) != rights) as u32;
        *word = page_word(frame_of(*word), rights);
    }
    renew(pages, ranges);
    b.append(Removal {
        space,
        first,
        count,
    });
    Ok((changed, 0))
}

/// Pages of a space in ranges, and its mapped pages.
pub fn pages_counted(b: &Buffers, space: u32) -> (u32, u32) {
    let pages = b.space_pages(space);
    let inside = pages.iter().filter(|&&w| in_range(w)).count() as u32;
    let mapped = pages.iter().filter(|&&w| w != 0).count() as u32;
    (inside, mapped)
}

/// 10,000 × inside / mapped, to the nearest whole figure; an exact half goes to
/// the even one.
pub fn figure(inside: u32, mapped: u32, rules: &Rules) -> u32 {
    let (whole, rest) = (10_000 * inside / mapped, 10_000 * inside % mapped);
    let next = match (2 * rest).cmp(&mapped) {
        Ordering::Less => false,
        Ordering::Equal => rules.halves_up || whole % 2 == 1,
        Ordering::Greater => true,
    };
    whole + next as u32
}

pub fn coverage(b: &Buffers, space: u32, rules: &Rules) -> Outcome {
    judge(b)?;
    space_known(space)?;
    space_open(b, space)?;
    let (inside, mapped) = pages_counted(b, space);
    if mapped == 0 {
        return Err(12);
    }
    Ok((figure(inside, mapped, rules), 0))
}
