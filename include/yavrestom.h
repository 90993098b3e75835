/* Yavrestom: the ten calls for a kernel in C (libkernel.a), page words to and from Sv39 entries for a debugger, which
 * needs no kernel beside it (libsv39.a), and the range table as a B-tree, which needs none either (librangetree.a). Rust
 * declares the same functions in an extern "C" block.
 *
 * Every buffer is lent as a pointer and, after it, its length in words (of 32 bits). The pointer is not null, and
 * that many words stand there. A buffer that a call may write (no const) overlaps no other buffer of that call, and
 * nobody else writes any of them until the call returns. Otherwise any lengths, any words and any numbers may be
 * passed: each call judges them itself.
 *
 * A call returns its number: 0 if it was accepted, else that of the first refusal that applies, in the order of the
 * list below. Its two values go into `values`; a refused call puts zeros there and alters neither buffer, unit nor tree.
 * Where `values` has not exactly YAVRESTOM_VALUES words, the number is 1 and nothing at all is written. `values` is
 * no part of a pool's buffers, of a unit or of a tree, and between calls nobody else writes those.
 *
 * A unit belongs to one pool. Whoever sets up the pool then sets up every unit that translates in it: a unit kept
 * from before may later answer frames of the old pool, and no call can tell. Zeroed words are no fresh unit.
 *
 * Refusals
 *    1  a length differs
 *    2  the tables are unsound, or the unit is malformed; of a tree: it is unlawful, or has a range that insertion beside
 *       the others would refuse
 *    3  the unit has seen more removal records than there are
 *    4  the pool size is not 1 to 4,096
 *    5  the space is above 3
 *    6  the rights are above 7
 *   17  the rights are 2 or 6, write without read
 *    7  the access is not 1, 2 or 4
 *    8  the count is 0, or the span goes past page 1,023; translate: the page is above 1,023; of a tree: the range has
 *       fewer than 8 pages, goes past page 1,023 or has a frame above 4,095, or the page or BASE is above 1,023
 *    9  the space is already open
 *   10  the space is not open
 *   11  a page is already mapped; of a tree: a page of the range is in a range held
 *   12  a page is not mapped; coverage: none is; of a tree: no range has the page, or the BASE
 *   13  the right is lacking
 *   14  fewer frames are free than asked
 *   15  no number is left for a removal record
 *   18  the page word or Sv39 entry has no counterpart, or the word is outside the layout of page words
 *
 * Rights and accesses: read 1, write 2, execute 4. An access is one of these. Rights are a sum of them in which write
 * comes with read: 0, 1, 3, 4, 5 or 7. Tables, units or trees that hold other rights are refused with 2.
 */
#ifndef YAVRESTOM_H
#define YAVRESTOM_H

#include <stddef.h>
#include <stdint.h>

#ifdef __cplusplus
extern "C" {
#endif

/* The lengths of the buffers, in words. */
#define YAVRESTOM_CONTROL 195
#define YAVRESTOM_FRAMES 4096
#define YAVRESTOM_PAGES 4096
#define YAVRESTOM_RANGES 2048
#define YAVRESTOM_VALUES 2

/* A unit, one for each core, is 515 words:
 *     0 .. 319   64 page entries of 5 words: valid, space, page, frame, rights
 *   320 .. 511   32 range entries of 6 words: valid, space, BASE, LIMIT, OFFSET, rights
 *   512          the range entry last used (32: none)
 *   513          the next place to replace (0 to 31)
 *   514          the number of removal records seen
 */
#define YAVRESTOM_UNIT 515
#define YAVRESTOM_UNIT_RANGE_ENTRIES 320
#define YAVRESTOM_UNIT_LAST_USED 512
#define YAVRESTOM_UNIT_NEXT_PLACE 513
#define YAVRESTOM_UNIT_SEEN 514

/* All frames of a pool of `pool` frames free, no space open, nothing mapped, no removal record.
 * Values: 0, 0. Refused: 1, 4. */
uint32_t yavrestom_set_up_pool(uint32_t *control, size_t control_words, uint32_t *frames, size_t frames_words,
                               uint32_t *pages, size_t pages_words, uint32_t *ranges, size_t ranges_words,
                               uint32_t pool, uint32_t *values, size_t values_words);

/* Makes the unit fresh, whatever it was. Values: 0, 0. Refused: 1. */
uint32_t yavrestom_set_up_unit(uint32_t *unit, size_t unit_words, uint32_t *values, size_t values_words);

/* Opens a space. Values: 0, 0. Refused: 1, 2, 5, 9. */
uint32_t yavrestom_open(uint32_t *control, size_t control_words, const uint32_t *frames, size_t frames_words,
                        const uint32_t *pages, size_t pages_words, const uint32_t *ranges, size_t ranges_words,
                        uint32_t space, uint32_t *values, size_t values_words);

/* Unmaps all pages of a space, appends a removal record for them and closes it.
 * Values: pages removed, 0. Refused: 1, 2, 5, 10, 15. */
uint32_t yavrestom_close(uint32_t *control, size_t control_words, uint32_t *frames, size_t frames_words,
                         uint32_t *pages, size_t pages_words, uint32_t *ranges, size_t ranges_words,
                         uint32_t space, uint32_t *values, size_t values_words);

/* Maps `count` pages from `first` on, with the rights asked, to the frames that the map rule takes. Its wish is the
 * frame after that of the page before `first`, if that is mapped.
 * Values: blocks taken, 0. Refused: 1, 2, 5, 6, 17, 8, 10, 11, 14. */
uint32_t yavrestom_map(const uint32_t *control, size_t control_words, uint32_t *frames, size_t frames_words,
                       uint32_t *pages, size_t pages_words, uint32_t *ranges, size_t ranges_words,
                       uint32_t space, uint32_t first, uint32_t count, uint32_t rights,
                       uint32_t *values, size_t values_words);

/* What a map with these arguments would answer; it alters nothing but `values`.
 * Values: blocks that map would take, ranges that the space would then have. Refused as map. It takes some 6,400
 * bytes of the stack. */
uint32_t yavrestom_preview(const uint32_t *control, size_t control_words, const uint32_t *frames, size_t frames_words,
                           const uint32_t *pages, size_t pages_words, const uint32_t *ranges, size_t ranges_words,
                           uint32_t space, uint32_t first, uint32_t count, uint32_t rights,
                           uint32_t *values, size_t values_words);

/* Unmaps `count` pages from `first` on and appends a removal record for them.
 * Values: pages removed, 0. Refused: 1, 2, 5, 8, 10, 12, 15. */
uint32_t yavrestom_unmap(uint32_t *control, size_t control_words, uint32_t *frames, size_t frames_words,
                         uint32_t *pages, size_t pages_words, uint32_t *ranges, size_t ranges_words,
                         uint32_t space, uint32_t first, uint32_t count, uint32_t *values, size_t values_words);

/* Gives `count` pages from `first` on other rights and appends a removal record for them.
 * Values: pages whose rights differ afterwards, 0. Refused: 1, 2, 5, 6, 17, 8, 10, 12, 15. */
uint32_t yavrestom_protect(uint32_t *control, size_t control_words, const uint32_t *frames, size_t frames_words,
                           uint32_t *pages, size_t pages_words, uint32_t *ranges, size_t ranges_words,
                           uint32_t space, uint32_t first, uint32_t count, uint32_t rights,
                           uint32_t *values, size_t values_words);

/* The unit catches up with the removal records, then the first that holds the page decides: a page entry (way 1),
 * a range entry (way 2), the page word (way 3); what ways 2 and 3 give is installed in the unit.
 * Values: frame, way. Refused: 1, 2, 3, 5, 7, 8, 10, 12, 13. */
uint32_t yavrestom_translate(uint32_t *unit, size_t unit_words, const uint32_t *control, size_t control_words,
                             const uint32_t *frames, size_t frames_words, const uint32_t *pages, size_t pages_words,
                             const uint32_t *ranges, size_t ranges_words,
                             uint32_t space, uint32_t page, uint32_t access, uint32_t *values, size_t values_words);

/* Of a space's mapped pages, how many in 10,000 lie in ranges, to the nearest whole figure, an exact half to the even
 * one: 9 of 32 pages give 2812, 11 of 32 give 3438. Values: that figure, 0. Refused: 1, 2, 5, 10, 12. */
uint32_t yavrestom_coverage(const uint32_t *control, size_t control_words, const uint32_t *frames, size_t frames_words,
                            const uint32_t *pages, size_t pages_words, const uint32_t *ranges, size_t ranges_words,
                            uint32_t space, uint32_t *values, size_t values_words);

/* The Sv39 leaf entry of a page word, whatever its 32 bits are. A page word is 0 (unmapped) or
 * 65,536 + 32,768 x range bit + 4,096 x rights + frame. The entry has V, A and D set, R, W and X as the page's rights, the
 * range bit at bit 8 and the frame from bit 10 on, all other bits clear; so it has at most 22 bits. Word 0 has the entry 0.
 * A page that is mapped with rights 0 has none, nor has a word outside the layout, rights 2 and 6 among them.
 * Values: the entry, 0. Refused: 1 (the length of `values`), 18. */
uint32_t yavrestom_to_sv39(uint32_t word, uint32_t *values, size_t values_words);

/* The page word of an Sv39 entry, whatever its 64 bits are: the other way. An entry other than 0 has none if V, A or D is
 * clear, if one of bits 4, 5, 9 and 54 to 63 is set, if its frame is above 4,095, or if its rights are 0, 2 or 6.
 * Values: the word, 0. Refused: 1 (the length of `values`), 18. */
uint32_t yavrestom_from_sv39(uint64_t entry, uint32_t *values, size_t values_words);

/* A tree of ranges is 1,537 words: the number of the root (64: the tree is empty), then 64 nodes of 24 words, which are
 *     0          how many ranges the node has, at most 4; at least 2, or 1 in the root
 *     1          1 in a leaf, else 0
 *     2 .. 17    4 ranges of 4 words: BASE, LIMIT, OFFSET, rights
 *    18 .. 22    5 numbers of children, of which a node that is no leaf has one more than ranges
 *    23          0
 * All leaves have one depth, no node is reached twice, and the ranges of the tree ascend by BASE and do not overlap. Every
 * word that is not used is 0, all 24 of a node that is not reached from the root. So an empty tree is YAVRESTOM_TREE_EMPTY and 1,536 zeros; whoever lends the buffer
 * writes that before the first call. A tree stands beside the pool: no call on the pool reads or writes it.
 *
 * A range has the pages from BASE up to LIMIT, LIMIT left out. The frame of a page is page + OFFSET modulo 2 to the power
 * 32. */
#define YAVRESTOM_TREE 1537
#define YAVRESTOM_TREE_EMPTY 64

/* Puts in a range. It may adjoin others and share frames with them. Values: 0, 0. Refused: 1, 2, 6, 17, 8, 11. */
uint32_t yavrestom_tree_insert(uint32_t *tree, size_t tree_words,
                               uint32_t base, uint32_t limit, uint32_t offset, uint32_t rights,
                               uint32_t *values, size_t values_words);

/* Takes out the range with this BASE. Values: 0, 0. Refused: 1, 2, 8, 12. */
uint32_t yavrestom_tree_remove(uint32_t *tree, size_t tree_words, uint32_t base,
                               uint32_t *values, size_t values_words);

/* Finds the range that has the page; it alters nothing but `values`.
 * Values: 4,096 x rights + frame; the nodes on the path from the root, that of the range included, 1 to 4.
 * Refused: 1, 2, 8, 12. */
uint32_t yavrestom_tree_lookup(const uint32_t *tree, size_t tree_words, uint32_t page,
                               uint32_t *values, size_t values_words);

#ifdef __cplusplus
}
#endif

#endif
