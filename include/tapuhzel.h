/* Tapuhzel: a proved pruner of radio networks, for C.
 *
 * A slice is a pointer and a length in elements. It is lent for the call: nothing is kept, nothing is freed, and
 * slices of one call do not overlap. A pointer to a result is not null and points at room of its own.
 *
 * Every routine returns the number of its answer: 0 where it is not refused, else the number of the refusal. A refused
 * call leaves every lent slice as it was and writes only its results, which but for the last two have *place and *list
 * among them:
 *   *place  the refusal's place: a line's place, a round, an index or an offset, else 0; 0 where it is not refused
 *   *list   which line list a refusal 2, 6, 7 or 8 of a union speaks of, 1 or 2; 3 for the records of a file; else 0
 *
 * A call takes no memory but its stack. In bytes, for up to 64 stations and 256 lines, and for every network, as
 * measured (bench/stack.c; docs/SPEED.md has the table):
 *   judge 5,303 and 66,695    prune 5,719 and 67,111    check 13,703 and 75,095    copy 120    unite 6,455 and 67,847
 *   joined 8,503 and 69,895   weak 13,911 and 66,951    write 5,415 and 66,807     read 191
 *   keep_text 9,223 and 110,295                         weak_text 15,367 and 108,087
 */
#ifndef TAPUHZEL_H
#define TAPUHZEL_H

#include <stddef.h>
#include <stdint.h>

/* The judge of a network of n stations and a list of lines, two numbers to a line: refusals 1 and 2, then each line in
 * list order for 6 (an end is n or more), 7 (the ends are equal) and 8 (the same two ends stood earlier). */
uint8_t tapuhzel_judge(size_t n, const uint16_t *lines, size_t lines_len, size_t *place, uint8_t *list);

/* Prunes a network of n stations at a level, from a starting station for each round. ranks gets a byte for each line,
 * orders level times n numbers, later places stay; *kept is the count of kept lines, 0 where the call is refused.
 * Refusals 1, 2, 3, 4, 5, then lines, then 9; a refused call leaves ranks and orders as they were. */
uint8_t tapuhzel_prune(size_t n, size_t level, const uint16_t *lines, size_t lines_len, const uint16_t *starts,
                       size_t starts_len, uint8_t *ranks, size_t ranks_len, uint16_t *orders, size_t orders_len,
                       size_t *kept, size_t *place, uint8_t *list);

/* The check of forests: whether ranks (a byte for each line) and orders (level times n numbers) from anywhere meet the
 * published definition. Where the call is not refused, *kind is 0 (accepted), or the first fault's kind, 1 for A to 5
 * for E, with its round (0 for A) in *round and its own place in *at: the line's place (A, E), the position in the
 * round (B) or the station (C, D). All three are 0 where the call is refused. Refusals 1, 2, 3, 5, then lines. */
uint8_t tapuhzel_check(size_t n, size_t level, const uint16_t *lines, size_t lines_len, const uint8_t *ranks,
                       size_t ranks_len, const uint16_t *orders, size_t orders_len, uint8_t *kind, uint8_t *round,
                       size_t *at, size_t *place, uint8_t *list);

/* Copies the kept lines, those whose rank is not 0, to the front of room in list order; *count is how many lines that
 * are, 0 where the call is refused. Refusals 2, then 5 (ranks shorter than the lines, or too little room). */
uint8_t tapuhzel_copy(const uint16_t *lines, size_t lines_len, const uint8_t *ranks, size_t ranks_len, uint16_t *room,
                      size_t room_len, size_t *count, size_t *place, uint8_t *list);

/* Unites two lists over n stations at the front of room: the first, then those lines of the second that the first
 * lacks; *count is how many lines the union has, 0 where the call is refused. Refusals 1; 2 for each list; lines of the
 * first, then of the second; 13; 5. *list says which list 2, 6, 7 and 8 speak of. */
uint8_t tapuhzel_unite(size_t n, const uint16_t *first, size_t first_len, const uint16_t *second, size_t second_len,
                       uint16_t *room, size_t room_len, size_t *count, size_t *place, uint8_t *list);

/* Whether stations one and two are joined when those of a strictly rising list are taken away: *joined is 1 or 0, and 0
 * where the call is refused. Refusals 1, 2, lines, 10 (place: its index), 11 (place: 0 for one, 1 for two). */
uint8_t tapuhzel_joined(size_t n, const uint16_t *lines, size_t lines_len, const uint16_t *away, size_t away_len,
                        uint16_t one, uint16_t two, uint8_t *joined, size_t *place, uint8_t *list);

/* The weak spot of a network at a level from 1 to 3: the fewest stations, fewer than the level, that part two others.
 * *weak is 1 where there is one, 0 where the network stands; then *size is the number of its stations, 0 to 2, *first
 * and *second are they, the lower first, *one is the lowest station left, and *two the lowest not joined to it. What
 * there is not is 0, as is everything where the call is refused. Refusals 1, 2, 12, then lines. */
uint8_t tapuhzel_weak(size_t n, size_t level, const uint16_t *lines, size_t lines_len, uint8_t *weak, uint8_t *size,
                      uint16_t *first, uint16_t *second, uint16_t *one, uint16_t *two, size_t *place, uint8_t *list);

/* Reads a network file. The ends of its lines go to the front of lines, which has room for 16,384 numbers or more, its
 * starting stations to the front of starts, room for 16 or more; *n is the number of stations, *level its k,
 * *m and *s how many lines and starting stations it has. The network is not judged. Refusals 5, then
 * those of the file by offset: 20, 21, 2 (the 8,193rd line), 4 (the 17th start), 22, 23, of list 3; a refused call
 * leaves lines and starts as they were, and its counts are 0. */
uint8_t tapuhzel_read(const uint8_t *bytes, size_t bytes_len, uint16_t *lines, size_t lines_len, uint16_t *starts,
                      size_t starts_len, size_t *n, size_t *level, size_t *m, size_t *s,
                      size_t *place, uint8_t *list);

/* Writes a network as a file to the front of bytes; *count is how many bytes that are, 10 and 6 for each line and 4 for
 * each start, 0 where the call is refused. It refuses as tapuhzel_prune does, with bytes as the only room. */
uint8_t tapuhzel_write(size_t n, size_t level, const uint16_t *lines, size_t lines_len, const uint16_t *starts,
                       size_t starts_len, uint8_t *bytes, size_t bytes_len, size_t *count, size_t *place,
                       uint8_t *list);

/* What the programs keep and weak write of a file's bytes, at the front of text; *count is how many bytes that are. A
 * refusal of the file or the network is the text `refused N at P`. The only refusal of the call is 5, with *count 0:
 * text is shorter than 524,416 bytes for keep, 256 for weak. */
uint8_t tapuhzel_keep_text(const uint8_t *bytes, size_t bytes_len, uint8_t *text, size_t text_len, size_t *count);
uint8_t tapuhzel_weak_text(const uint8_t *bytes, size_t bytes_len, uint8_t *text, size_t text_len, size_t *count);

#endif
