/* The proved library for C. Each function answers whatever text, spread and space come in; what it promises is proved in crates/nabetsu.
 *
 * A pointer must point to as many items as the length behind it says, be aligned, and not be null even where that length is 0; the text and the output must
 * not overlap. Nothing outside the output is written, and nothing is kept from call to call.
 *
 * A placement can be drawn if each pair of each channel can be given a path of unit steps from terminal to terminal, no point shared; in a channel with separation t
 * horizontal steps are on tracks 1 to t - 1 only, so that no path runs along a strip's edge.
 *
 * A refusal is one number: its own number times 2^40, its line times 2^20 and its field, added. It is at least 2^40, and every other answer is
 * below that. Refusals of the text are 1 overlong, 2 layout (a wrong word, a missing, extra or unended line), 3 crowd, 4 length, 5 overhang, 6 crossing, 11 a wrong
 * count of fields, at the first missing or extra, 12 an ill-formed number, at its field, and 14 a least position above the greatest; every function gives these before others. 7 is narrow (below the greatest, over all strips,
 * of length plus least position), 8 short space,
 * 9 broad, 10 a total that is not met, 13 a session without a strip, or with none to take off. */
#ifndef NABETSU_H
#define NABETSU_H

#include <stddef.h>
#include <stdint.h>

/* So many bytes are enough for every table, whatever the floors and windows in its text. */
#define NABETSU_TABLE_BYTES 24388

/* So many bytes are enough for every page. */
#define NABETSU_PAGE_BYTES 4485

/* The numbers that are placed: the total, eight separations, nine positions; and those that are tried, the same without the total. */
#define NABETSU_ANSWER_NUMBERS 18
#define NABETSU_PLACEMENT_NUMBERS 17

#define NABETSU_IS_REFUSED(code) ((code) >> 40 != 0)
#define NABETSU_NUMBER(code) ((unsigned)((code) >> 40))
#define NABETSU_LINE(code) ((unsigned)((code) >> 20 & 0xfffff))
#define NABETSU_FIELD(code) ((unsigned)((code) & 0xfffff))

/* The table of the stack in a text: its bytes, and zeros in the rest of the output; answers how many bytes it has. Or a refusal of the text, then 8
 * exactly if the table is longer than the output, and zeros in the whole output. */
uint64_t nabetsu_write_table(const uint8_t *text, size_t text_length, uint8_t *output, size_t output_length);

/* The least total in a spread, at most 512. Or a refusal of the text, then 7. A placement with that total can be drawn in that spread with no channel below its floor and
 * each strip inside its window, all paths inside the spread, and no placement that can be drawn so, inside the spread or not, has a smaller one. The text of the card upside down, its strips in
 * reverse with their windows, its channels in reverse with their floors and the terminals of each pair exchanged, has the same answer at every spread; so has that of its mirror image where no
 * strip has a window. */
uint64_t nabetsu_least_total(const uint8_t *text, size_t text_length, uint32_t spread);

/* The placement in a spread for a stated total: 0, with total, separations and positions in the output, zeros in unused places and behind them. Of the legal
 * placements in that spread with exactly that total it is the one that document 01's tie rule picks, and it can be drawn with no channel below its floor and each strip inside
 * its window. Or a
 * refusal of the text, then 7, then 10 exactly if no legal placement in that spread has exactly that total, that is, if it is below the least total; then 8 where the
 * output has fewer than 18 places; and zeros in the whole output. */
uint64_t nabetsu_place_total(const uint8_t *text, size_t text_length, uint32_t spread, uint32_t total, uint32_t *output, size_t output_length);

/* The same two for a session, whose steps are a text: lines BEGIN and PART for a first strip; ADD, PART and NETS for a strip on top with the channel below it; OFF to take the top
 * strip off. Each line ends in a line feed; BEGIN, ADD and OFF stand alone, PART has a length and no window, NETS terminals, as in the text of a stack. The answer is that of the session behind the last
 * step. Or a refusal: 1 for a text above 8,192 bytes, 2 at the first line that is no line of a step or is missing; then that of the last step, without line and with the field in its PART or NETS
 * line: 13 where no strip is held, or the only one is taken off, 3 without field for a tenth strip, 4, 11, 3, 5, 6 (a step that is refused leaves the session as it was, a refused
 * beginning leaves it empty); then 13 where no strip is held, 7, 10 and 8 as above. With two strips or more the answer is that of the text of the same stack; a single strip has total 0 and position 0. */
uint64_t nabetsu_session_total(const uint8_t *steps, size_t steps_length, uint32_t spread);
uint64_t nabetsu_session_place(const uint8_t *steps, size_t steps_length, uint32_t spread, uint32_t total, uint32_t *output, size_t output_length);

/* The page of a channel, from 1, in the placement with the least total in a spread of at most 63: a line of 69 bytes for each track, the highest first, and zeros in the rest of the
 * output; answers how many bytes it has. Or a refusal: of the text, then 3 without line and field where there is no such channel, 7, 9 where the spread is above 63, then 8
 * exactly if the page is longer than the output; and zeros in the whole output. The page shows one path for each pair of the channel, from terminal to terminal, no point
 * shared, none outside the spread; every point of a path has a character other than the dot, every other point the dot; and # never appears. */
uint64_t nabetsu_write_page(const uint8_t *text, size_t text_length, uint32_t spread, uint32_t channel, uint8_t *output, size_t output_length);

/* The trial of eight separations and nine positions: 1 exactly if they are legal, floors and windows included, with zeros in unused places; 2 if not, or if there are not 17 numbers. Or a
 * refusal of the text. */
uint64_t nabetsu_try_placement(const uint8_t *text, size_t text_length, uint32_t spread, const uint32_t *placement, size_t placement_length);

#endif
