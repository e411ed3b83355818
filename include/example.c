/* The library from C: which lines of a network to keep, and what still holds over them. .ci/run builds and runs it, and
 * holds what it writes to example.txt. */
#include <stdio.h>

#include "tapuhzel.h"

/* What a program may say of a call that is refused: its number and its place. */
static int refused(uint8_t refusal, size_t place)
{
    printf("refused %d at %zu\n", refusal, place);
    return 1;
}

int main(void)
{
    /* Four stations, every two of them joined by a line; any one station may fail. */
    const uint16_t lines[] = {0, 1, 0, 2, 0, 3, 1, 2, 1, 3, 2, 3}, starts[] = {0, 0};
    uint8_t ranks[6], list;
    uint16_t orders[8];
    size_t kept, place;

    /* Prune: a line of rank 0 can be given up. */
    uint8_t refusal = tapuhzel_prune(4, 2, lines, 12, starts, 2, ranks, 6, orders, 8, &kept, &place, &list);
    if (refusal != 0)
        return refused(refusal, place);
    printf("%zu lines kept, of ranks", kept);
    for (size_t line = 0; line < 6; line++)
        printf(" %d", ranks[line]);
    putchar('\n');

    /* Check: ranks and orders may come from anywhere, as here from pruning. */
    uint8_t kind, round;
    size_t at;
    refusal = tapuhzel_check(4, 2, lines, 12, ranks, 6, orders, 8, &kind, &round, &at, &place, &list);
    if (refusal != 0)
        return refused(refusal, place);
    printf("the check finds them %s\n", kind == 0 ? "right" : "faulty");

    /* Copy: the kept lines alone, as a list of their own. */
    uint16_t room[12];
    size_t count;
    refusal = tapuhzel_copy(lines, 12, ranks, 6, room, 12, &count, &place, &list);
    if (refusal != 0)
        return refused(refusal, place);
    for (size_t line = 0; line < count; line++)
        printf("line from %d to %d\n", room[2 * line], room[2 * line + 1]);

    /* Joined: over the kept lines, when station 0 has failed. */
    const uint16_t away[] = {0};
    uint8_t joined;
    refusal = tapuhzel_joined(4, room, 2 * count, away, 1, 2, 3, &joined, &place, &list);
    if (refusal != 0)
        return refused(refusal, place);
    printf("without 0, stations 2 and 3 are %s\n", joined ? "joined" : "apart");

    /* Weak: any one station may fail, which is level 2; at level 3 two of them may. */
    uint8_t weak, size;
    uint16_t first, second, one, two;
    for (size_t level = 2; level <= 3; level++) {
        refusal = tapuhzel_weak(4, level, room, 2 * count, &weak, &size, &first, &second, &one, &two, &place, &list);
        if (refusal != 0)
            return refused(refusal, place);
        printf("level %zu: %s", level, weak ? "weak" : "stands");
        if (size > 0)
            printf(" %d", first);
        if (size > 1)
            printf(" %d", second);
        if (weak)
            printf(" parts %d from %d", one, two);
        putchar('\n');
    }

    /* Refused: the line at place 1 is that at place 0, the other way round. */
    const uint16_t twice[] = {0, 1, 1, 0};
    refusal = tapuhzel_judge(2, twice, 4, &place, &list);
    refused(refusal, place);
    return 0;
}
