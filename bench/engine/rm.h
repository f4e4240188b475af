/* The rank modulation rewrite engine as a static library for x86-64 Linux:
 * target/staticlib/libexports.a, built by `scripts/build library`. The functions keep no global
 * state, allocate nothing, do no input or output and always return; any threads may call them at
 * once. */
#ifndef RM_H
#define RM_H

#include <stddef.h>
#include <stdint.h>

#ifdef __cplusplus
extern "C" {
#endif

/* Puts the text that `rmcalls` prints for an input of 8-byte call records at the start of out, leaves
 * the rest of out, and returns the size of the text, which is never 0. Any bytes are taken, and of an
 * input longer than 65,536 only these are read. Where out_len is below rm_room(input_len), nothing is
 * written, and 0 is returned.
 * Each group that the input opens has an endurance of 1,000,000: a store or scrub that would bring the
 * pulses which a cell has ever taken past it is refused 19, after 8. An erase keeps these pulses; an
 * open starts anew.
 * The caller sees to it that input and out, not null even where a length is 0, have input_len and
 * out_len bytes and do not overlap. */
size_t rm_run(const uint8_t *input, size_t input_len, uint8_t *out, size_t out_len);

/* The length that rm_run's out must have for an input of that size: 16 bytes for each byte that is
 * read, and 64. */
size_t rm_room(size_t size);

/* K(n), the number of codewords of n cells; 0 where n is not 3 to 12. */
uint32_t rm_words(size_t n);

/* The numbers of the windows along a run (local rank modulation).
 *
 * A run is a ring of cells: cell 1 follows the last one. levels has the level of each, cell 1 first.
 * This list is all there is to a run: the caller starts it with zeros and raises a cell by storing
 * its new level. That cells only rise is not looked at here; the Rattle crate cell_run has a record
 * for a run, and open_run and raise_cell, which see to it.
 *
 * A window is width cells of the ring one after another. The first window starts with cell 1, the
 * next with cell 1 + step, and so on; there are levels_len / step windows, and the last ones may go
 * round the end of the run.
 *
 * The number of a window tells the order of its levels; it is from 0 to width! - 1, where width! is
 * 1 * 2 * .. * width. With its cells numbered anew from 1, it is the sum of c(i) times i factorial
 * for i from 1 to width - 1, where c(i) counts the cells before cell i + 1 of the window whose level is
 * not higher. Of two cells with equal levels, the one that comes later in the window thus counts as
 * the higher.
 *
 * Where 0 is returned, the numbers of the windows stand at the start of numbers, in the order of the
 * windows, and the run's levels at the start of scratch. All places after these keep what they held,
 * and levels is only read. Otherwise nothing is written, and the answer says why:
 *   13  levels_len is not 3 to 128, or a level is above 4,095, or width is not 3 to 12 or is above
 *       levels_len, or step is 0 or above width or does not divide levels_len
 *   15  numbers_len is below levels_len / step, or scratch_len is below levels_len
 * 13 comes before 15. 128 places are always enough for either list.
 *
 * For example, levels 5 9 5 2, width 3 and step 1 give four windows:
 *   cells 1 2 3, levels 5 9 5: c(1) = 1, c(2) = 1, number 1 * 1 + 1 * 2 = 3
 *   cells 2 3 4, levels 9 5 2: c(1) = 0, c(2) = 0, number 0
 *   cells 3 4 1, levels 5 2 5: c(1) = 0, c(2) = 2, number 4
 *   cells 4 1 2, levels 2 5 9: c(1) = 1, c(2) = 2, number 5
 *
 * A window takes width * (width - 1) / 2 comparisons of levels, at most 66; besides, each level of
 * the run is compared with 4,095 and copied once, and a window round the end of the run is copied
 * once. A call takes less than 256 bytes of stack, as measured.
 *
 * All memory stays the caller's, who sees to it that levels, numbers and scratch, aligned and not
 * null even where a length is 0, have levels_len, numbers_len and scratch_len elements, and that
 * none of the three overlaps another. */
uint8_t rm_windows(const uint16_t *levels, size_t levels_len, size_t width, size_t step,
                   uint32_t *numbers, size_t numbers_len, uint16_t *scratch, size_t scratch_len);

/* A test load: symbols in a row that come out alike wherever they are made.
 *
 * The generator is the 32-bit xorshift of Marsaglia. A state is a uint32_t that is not 0; what these
 * three lines make of a state x is the next one:
 *   x ^= x << 13;
 *   x ^= x >> 17;
 *   x ^= x << 5;
 * Bits that are shifted out are lost. From 1 the next state is 270369. The symbol of a state is the
 * remainder that it leaves when divided by rm_words(n), so it is one that a store of n cells takes,
 * 0 to rm_words(n) - 1.
 *
 * Where 0 is returned, all list_len places of list hold symbols. The first is that of the state after
 * seed, not that of seed itself, and each further one is that of the next state. *last is then the
 * last state, the one of the last symbol; where list_len is 0, it is seed. It is never 0.
 *
 * Otherwise list keeps what it held, *last is set to 0, which as the next seed is refused too, and
 * the answer says why:
 *    1  n is not 3 to 12
 *   21  seed is 0
 * 1 comes before 21, and both are said of a list of length 0 too.
 *
 * A load may be made in pieces, each with the last state of the one before as its seed. Wherever it is
 * cut, the symbols and the last state are those of the load made whole. From any seed all 4,294,967,295
 * states come before one comes again (this is tested, not proved).
 *
 * A load is for tests: for n = 3 and 4 a symbol is the lowest one or two bits of its state, and for
 * other n some symbols are a little more frequent than others.
 *
 * For example, n = 5, for which rm_words is 14, seed 1 and four symbols:
 *   state     270369 =     19312 * 14 +  1, symbol  1
 *   state   67634689 =   4831049 * 14 +  3, symbol  3
 *   state 2647435461 = 189102532 * 14 + 13, symbol 13
 *   state  307599695 =  21971406 * 14 + 11, symbol 11
 * *last is 307599695. A call for two symbols gives 1 and 3, and 67634689 in *last; the next call, for
 * two more from the seed 67634689, gives 13 and 11, and 307599695 in *last.
 *
 * A symbol costs one division and ten to twenty other instructions; besides, a call finds rm_words(n)
 * once.
 *
 * All memory stays the caller's, who sees to it that list and last are aligned and not null even where
 * list_len is 0, that list has list_len elements, and that last points to none of these. What they held
 * before is not read. */
uint8_t rm_load(size_t n, uint32_t seed, uint32_t *list, size_t list_len, uint32_t *last);

#ifdef __cplusplus
}
#endif

#endif
