/* How much stack each routine of tapuhzel.h takes, as a table for docs/SPEED.md: each is called in a thread whose stack was
 * painted before, and the paint that is gone is counted. It fails where a routine takes more than its goal; and each is
 * called once more in a thread that has 128 KB of stack in all, its own needs included.
 *
 *   tools/staticlib && cc -O2 -I include bench/stack.c target/staticlib/libtapuhzel.a -lpthread -o target/stack
 *   target/stack
 */
#define _POSIX_C_SOURCE 200809L
#include <pthread.h>
#include <stdio.h>
#include <stdlib.h>
#include <string.h>

#include "tapuhzel.h"

enum { STATIONS = 1024, LINES = 8192, LEVEL = 16, WEAK_LEVEL = 3, FILE_BYTES = 49226, TEXT_BYTES = 524416 };
enum { DEEP = 1 << 21, SHALLOW = 128 * 1024, PAINT = 0xA5 };
enum { SMALL_GOAL = 16 * 1024, LARGE_GOAL = 80 * 1024 };

/* The network in hand, and room for every answer. */
static size_t stations, line_count;
static uint16_t lines[2 * LINES], starts[LEVEL], orders[LEVEL * STATIONS], room[2 * LINES], read_starts[LEVEL];
static uint8_t ranks[LINES], file[FILE_BYTES], stands_file[FILE_BYTES], ring_file[FILE_BYTES], text[TEXT_BYTES];
static size_t file_size, stands_size, ring_size;

/* What every call but copying and the texts also writes. */
static size_t count, place;
static uint8_t list;

/* A call that is refused does less than the one that is to be measured. */
static void *taken(uint8_t answer)
{
    if (answer != 0) {
        fprintf(stderr, "a call was refused: %u at %zu\n", answer, place);
        exit(1);
    }
    return NULL;
}

static void *judge(void *unused)
{
    (void)unused;
    return taken(tapuhzel_judge(stations, lines, 2 * line_count, &place, &list));
}

static void *prune(void *unused)
{
    (void)unused;
    return taken(tapuhzel_prune(stations, LEVEL, lines, 2 * line_count, starts, LEVEL, ranks, LINES, orders, LEVEL * STATIONS, &count, &place, &list));
}

static void *check(void *unused)
{
    (void)unused;
    uint8_t kind, round;
    size_t at;
    return taken(tapuhzel_check(stations, LEVEL, lines, 2 * line_count, ranks, LINES, orders, LEVEL * STATIONS, &kind, &round, &at, &place, &list));
}

static void *copy(void *unused)
{
    (void)unused;
    return taken(tapuhzel_copy(lines, 2 * line_count, ranks, LINES, room, 2 * LINES, &count, &place, &list));
}

/* The two halves of the list: their union is the whole. */
static void *unite(void *unused)
{
    (void)unused;
    size_t half = line_count / 2 * 2;
    return taken(tapuhzel_unite(stations, lines, half, lines + half, 2 * line_count - half, room, 2 * LINES, &count, &place, &list));
}

static void *joined(void *unused)
{
    (void)unused;
    const uint16_t away[] = {1, 2};
    uint8_t are_joined;
    return taken(tapuhzel_joined(stations, lines, 2 * line_count, away, 2, 0, 3, &are_joined, &place, &list));
}

/* Of the whole list, which stands, and of the ring that it begins with, which does not. */
static void *weak(void *unused)
{
    (void)unused;
    uint8_t is_weak, size;
    uint16_t first, second, one, two;
    taken(tapuhzel_weak(stations, WEAK_LEVEL, lines, 2 * line_count, &is_weak, &size, &first, &second, &one, &two, &place, &list));
    return taken(tapuhzel_weak(stations, WEAK_LEVEL, lines, 2 * stations, &is_weak, &size, &first, &second, &one, &two, &place, &list));
}

static void *read_network(void *unused)
{
    (void)unused;
    size_t n, k, m, s;
    return taken(tapuhzel_read(file, file_size, room, 2 * LINES, read_starts, LEVEL, &n, &k, &m, &s, &place, &list));
}

static void *write_network(void *unused)
{
    (void)unused;
    return taken(tapuhzel_write(stations, LEVEL, lines, 2 * line_count, starts, LEVEL, file, FILE_BYTES, &file_size, &place, &list));
}

static void *keep_text(void *unused)
{
    (void)unused;
    return taken(tapuhzel_keep_text(file, file_size, text, TEXT_BYTES, &count));
}

static void *weak_text(void *unused)
{
    (void)unused;
    taken(tapuhzel_weak_text(stands_file, stands_size, text, TEXT_BYTES, &count));
    return taken(tapuhzel_weak_text(ring_file, ring_size, text, TEXT_BYTES, &count));
}

/* The header's functions; whether at most 80 KB is asked of it for the largest network, and not only that it runs in 128 KB. */
static const struct {
    const char *name;
    void *(*routine)(void *);
    int is_asked_little;
} routines[] = {
    {"judge", judge, 1},        {"prune", prune, 1},         {"check", check, 1},         {"copy", copy, 1},
    {"unite", unite, 0},        {"joined", joined, 1},       {"weak", weak, 0},           {"read", read_network, 0},
    {"write", write_network, 1}, {"keep_text", keep_text, 0}, {"weak_text", weak_text, 0},
};

static const struct {
    const char *name;
    size_t stations, lines;
} sizes[] = {{"8 stations, 20 lines", 8, 20}, {"64 stations, 256 lines", 64, 256}, {"1,024 stations, 8,192 lines", STATIONS, LINES}};

enum { ROUTINES = sizeof routines / sizeof *routines, SIZES = sizeof sizes / sizeof *sizes };

/* Each station with the next one round the ring, then each with the next but one, and so on. */
static void set_network(size_t size)
{
    stations = sizes[size].stations;
    line_count = sizes[size].lines;
    for (size_t line = 0; line < line_count; line++) {
        lines[2 * line] = line % stations;
        lines[2 * line + 1] = (line % stations + 1 + line / stations) % stations;
    }
    taken(tapuhzel_write(stations, LEVEL, lines, 2 * line_count, starts, LEVEL, file, FILE_BYTES, &file_size, &place, &list));
    taken(tapuhzel_write(stations, WEAK_LEVEL, lines, 2 * line_count, starts, WEAK_LEVEL, stands_file, FILE_BYTES, &stands_size, &place, &list));
    taken(tapuhzel_write(stations, WEAK_LEVEL, lines, 2 * stations, starts, WEAK_LEVEL, ring_file, FILE_BYTES, &ring_size, &place, &list));
}

/* Where the routine in hand was called from. */
static uint8_t *called_at;

struct use {
    size_t routine, thread;
};

/* Calls a routine from a frame of its own. */
static void *call(void *routine)
{
    uint8_t here;
    called_at = &here;
    return ((void *(*const *)(void *))routine)[0](NULL);
}

/* Calls a routine in a thread with this much stack: how much of it was written to, below the caller's frame and in all. */
static struct use stack_of(void *(*routine)(void *), size_t size)
{
    static uint8_t *stack;
    pthread_attr_t attributes;
    pthread_t thread;
    if (stack == NULL && posix_memalign((void **)&stack, 4096, DEEP) != 0)
        exit(1);
    memset(stack, PAINT, DEEP);
    pthread_attr_init(&attributes);
    if (pthread_attr_setstack(&attributes, stack + (DEEP - size), size) != 0 || pthread_create(&thread, &attributes, call, &routine) != 0)
        exit(1);
    pthread_join(thread, NULL);
    uint8_t *lowest = stack;
    while (lowest < called_at && *lowest == PAINT)
        lowest++;
    return (struct use){called_at - lowest, stack + DEEP - lowest};
}

static int within(const char *name, const char *size, size_t bytes, size_t goal)
{
    if (bytes <= goal)
        return 1;
    fprintf(stderr, "%s takes %zu bytes of stack for %s, and %zu are the goal\n", name, bytes, size, goal);
    return 0;
}

int main(void)
{
    size_t bytes[ROUTINES][SIZES];
    int good = 1;
    for (size_t size = 0; size < SIZES; size++) {
        set_network(size);
        for (size_t i = 0; i < ROUTINES; i++) {
            int is_largest = size == SIZES - 1;
            size_t goal = !is_largest ? SMALL_GOAL : routines[i].is_asked_little ? LARGE_GOAL : SHALLOW;
            bytes[i][size] = stack_of(routines[i].routine, DEEP).routine;
            good &= within(routines[i].name, sizes[size].name, bytes[i][size], goal);
            good &= within(routines[i].name, sizes[size].name, stack_of(routines[i].routine, SHALLOW).thread, SHALLOW);
        }
    }
    printf("| Routine | %s | %s | %s |\n|---|---|---|---|\n", sizes[0].name, sizes[1].name, sizes[2].name);
    for (size_t i = 0; i < ROUTINES; i++)
        printf("| %s | %zu | %zu | %zu |\n", routines[i].name, bytes[i][0], bytes[i][1], bytes[i][2]);
    return good ? 0 : 1;
}
