/* channel.h: the adapter board channel, for C programs.
 *
 * Every entry takes buffers as a pointer and a length, and answers one 64-bit number:
 *
 *     upper 32 bits 0     success; the lower 32 bits hold the value named below
 *     upper 32 bits N     refusal or fault N of the shop's table; the lower 32 bits hold its place
 *                         (a place over 4,294,967,295 is shown as 4,294,967,295)
 *
 * No entry asks anything of its buffers: one that is too short is refused (number 1, the length needed). A pointer may
 * be NULL where its length is 0. A refusal changes nothing that was lent, except scratch and, under 7, the front of the
 * ring. A buffer that is written must not overlap another; those that are only read may be the same.
 *
 * A pin list is a text of two lines, first TOP, then BOT: the word, then one number or more, each behind one space or
 * more, then a line feed, or a carriage return and a line feed. A number is 0 or has no leading zero; nothing follows.
 *
 * Rows hold one net number a column, 0 for no pin. Pin positions, where a place is one, are 1 to w for TOP and w + 1 to
 * 2w for BOT. The list of the board turned over is had by exchanging the two rows: it is tangled exactly if the first
 * is, with the same density and chain.
 *
 * A pin whose net number stands nowhere else in the two rows is parked: cabjirt_route leaves it bare, and it counts
 * neither in density nor in chain. No entry tells which pins are parked: a caller who wants to know counts the numbers.
 * To cabjirt_judge a parked pin is a net of its own: copper joined to it alone is good, joined to another pin a short.
 *
 *   No  word          place
 *    1  short tray    the length needed
 *    2  garbled       the length of the longest start that some pin list shares: the offset of the byte that does not
 *                     belong
 *    3  too wide      513
 *    4  uneven        the shorter length plus 1
 *    5  high net      the lowest pin position with a number over 511
 *    7  tangled       the number of pairs (net, column) at the front of the ring
 *    8  torn          the length due
 *    9  bad field     0 for the header, else the number of the lowest bad piece
 *   10  wrong board   the board file's width
 *   11  short         the lowest pin position joined to an earlier pin of another net
 *   12  open          the lowest pin position not joined to its net's first pin
 *   13  floating      the number of the lowest piece joined to no pin
 *   14  no blank      the tracks wanted
 *   15  bad table     the first bad entry of a table of blanks, from 1; 0 if it has no entry, or more than 64
 *   16  no stock      the tracks wanted, which no entry of the table holds
 *   18  panel full    the lowest raised number over 511: 512 to 1022
 *   21  bad span      the net number that was given, whatever it is
 *   22  already here  the net number
 *   23  not here      the net number
 *
 * The numbers 6, 17, 19 and 20 are not used.
 */
#ifndef CABJIRT_CHANNEL_H
#define CABJIRT_CHANNEL_H

#include <stddef.h>
#include <stdint.h>

#ifdef __cplusplus
extern "C" {
#endif

/* The lengths that refusal 1 asks for: numbers in a row, a ring and scratch, bytes in a board, words in a draft.
 * Scratch has a number for each pin and piece that there can be: two rows of 512, and 4,095 pieces. A draft has eight
 * words for each of 512 columns. */
enum {
    CABJIRT_ROW = 512,
    CABJIRT_RING = 1022,
    CABJIRT_BOARD = 10240,
    CABJIRT_SCRATCH = 5119,
    CABJIRT_DRAFT = 4096
};

/* The upper half of an answer: 0, or the number of a refusal or fault. */
static inline uint32_t cabjirt_number(uint64_t answer) { return (uint32_t)(answer >> 32); }

/* The lower half: the value, or the place. */
static inline uint32_t cabjirt_value(uint64_t answer) { return (uint32_t)answer; }

/* Reads a pin list. Value: the width w; the first w numbers of each row are the list's, the rest stay. Refusals 1 to
 * 5. */
uint64_t cabjirt_read(const uint8_t *text, size_t text_length, uint32_t *top, size_t top_length, uint32_t *bot,
                      size_t bot_length);

/* Joins two lists on one panel: the second's columns follow the first's, and its net numbers are raised by the highest
 * number of the first, parked ones counted; 0 stays 0. Value: the joined width w; the first w numbers of each joined
 * row are the joined list's, the rest stay. The joined list is tangled exactly if either part is, and a tangled one may
 * be joined; otherwise each net is routed on the track that it has alone, and the tracks, density and chain are the
 * larger ones of both. Three lists that fit give the same rows in either grouping. Refusals, the first that applies:
 *
 *     1         a joined row is lent below CABJIRT_ROW numbers
 *     3 to 5    of the first list
 *     3 to 5    of the second list; its places are those that it has alone
 *     3         the columns of both exceed 512
 *     18        a raised number exceeds 511
 *
 * Which list is refused the number does not tell: cabjirt_bounds of the first, else of the second gives the same
 * refusal, and none of either where the panel itself is too wide or full. */
uint64_t cabjirt_join(const uint32_t *top1, size_t top1_length, const uint32_t *bot1, size_t bot1_length,
                      const uint32_t *top2, size_t top2_length, const uint32_t *bot2, size_t bot2_length,
                      uint32_t *top, size_t top_length, uint32_t *bot, size_t bot_length);

/* The bounds of a channel. Value: density * 65536 + chain; a tangled channel has chain 0. Refusals 3 to 5. No good
 * board has fewer tracks than the density, and none with at most one trunk a net fewer than the chain. */
uint64_t cabjirt_bounds(const uint32_t *top, size_t top_length, const uint32_t *bot, size_t bot_length);

/* Routes a channel. Value: pieces * 65536 + tracks; the first 4 + 4 * pieces bytes of the board are the board file, the
 * rest stay. Parked pins get no copper. Refusals 1, 3 to 5 and 7. */
uint64_t cabjirt_route(const uint32_t *top, size_t top_length, const uint32_t *bot, size_t bot_length, uint32_t *ring,
                       size_t ring_length, uint8_t *board, size_t board_length);

/* The ring with the fewest nets: the fewest wires to move in a tangled channel. A ring is a list of different nets,
 * each above the next in a named column, and the last above the first; cabjirt_route shows one under 7, which may be
 * longer. Of rings with as many nets it is the one whose numbers are the lowest, net, column, net, column and so on,
 * each ring begun at its lowest net. Value: the number of pairs (net, column) at the front of the ring, the rest stay;
 * 0 for none, exactly if the channel has no ring, and then the whole ring stays. Refusals 1 and 3 to 5. */
uint64_t cabjirt_fewest_ring(const uint32_t *top, size_t top_length, const uint32_t *bot, size_t bot_length,
                             uint32_t *ring, size_t ring_length);

/* How many looks the routing of a channel takes, tangled or not: the fill scans the nets not placed yet once for each
 * track, and each net of each scan is a look, the last scan of a tangled channel, which places none, included. Value:
 * the looks, never above the ceiling. Refusals 3 to 5. */
uint64_t cabjirt_looks(const uint32_t *top, size_t top_length, const uint32_t *bot, size_t bot_length);

/* The ceiling of the looks, for a progress bar. Value: n * (n + 1) / 2 for n nets whose pins stand in more than one
 * column, at most 130816. Refusals 3 to 5. */
uint64_t cabjirt_ceiling(const uint32_t *top, size_t top_length, const uint32_t *bot, size_t bot_length);

/* Judges a board file of exactly board_length bytes, tangled channels included. Value: its tracks. Refusals 1, 3 to 5
 * and 8 to 10, and faults 11 to 13. */
uint64_t cabjirt_judge(const uint32_t *top, size_t top_length, const uint32_t *bot, size_t bot_length,
                       const uint8_t *board, size_t board_length, uint32_t *scratch, size_t scratch_length);

/* The smallest stock blank that holds so many tracks. Value: the tracks that it holds. Refusal 14. */
uint64_t cabjirt_blank(uint32_t tracks);

/* The smallest entry that holds so many tracks, of a customer's own table of 1 to 64 track counts, each 1 to 512 and
 * strictly rising; the table is checked at each call, and only read. 0 tracks take the first entry. Value: the entry
 * chosen. Refusals 14 to 16, in that order: over 512 tracks are refused with 14 whatever the table is. */
uint64_t cabjirt_own_blank(const uint32_t *table, size_t table_length, uint32_t tracks);

/* A draft: the density of a list while nets are added and dropped. It is 4,096 words of 64 bits that the caller keeps,
 * eight for each column from 1 to 512: column c's are words[(c - 1) * 8] to words[(c - 1) * 8 + 7]. Net n is marked in
 * a column by bit n % 64 of the column's word n / 64, and the column's count is the number of its marks. Words after
 * the 4,096 are neither read nor written. A draft begins empty, all words 0, as cabjirt_draft_clear leaves it. After
 * any calls from there on, each column's count and the greatest are those of the nets that have arrived and not left
 * since; a refused call has no effect. Every call refuses with 1 where fewer than CABJIRT_DRAFT words are lent. */

/* Takes all nets off the draft. Value 0. Refusal 1. */
uint64_t cabjirt_draft_clear(uint64_t *words, size_t words_length);

/* A net arrives, with its first and last column. Value 0; its mark is then in each column from the first to the last.
 * Refusals 1; 21 where the number is not 1 to 511, or not 1 <= first < last <= 512; 22 where the net is on the draft,
 * that is, marked in any column. */
uint64_t cabjirt_draft_arrive(uint64_t *words, size_t words_length, uint32_t number, uint32_t first, uint32_t last);

/* A net leaves. Value 0; its mark is then in no column. Refusals 1; 21 where the number is not 1 to 511; 23 where the
 * net is not on the draft. */
uint64_t cabjirt_draft_leave(uint64_t *words, size_t words_length, uint32_t number);

/* How many nets there are over a column. Value: the count, 0 for a column outside 1 to 512. Refusal 1. */
uint64_t cabjirt_draft_count(const uint64_t *words, size_t words_length, uint32_t column);

/* The greatest count of all columns: the density. Value: the greatest. Refusal 1. */
uint64_t cabjirt_draft_greatest(const uint64_t *words, size_t words_length);

#ifdef __cplusplus
}
#endif

#endif
