/* Random numbers, memory with guards, the comparison and the counts: see check.h. */
#include "check.h"
#include "libc.h"

/* ---- random numbers: splitmix64 ---- */

static unsigned long state;

void start_from(unsigned long seed)
{
    state = seed;
}

unsigned long any(void)
{
    unsigned long z = state += 0x9E3779B97F4A7C15;

    z = (z ^ z >> 30) * 0xBF58476D1CE4E5B9;
    z = (z ^ z >> 27) * 0x94D049BB133111EB;
    return z ^ z >> 31;
}

unsigned long below(unsigned long bound)
{
    return (any() >> 32) * bound >> 32;                 /* bounds here are below 2^32 */
}

int once_in(unsigned long times)
{
    return below(times) == 0;
}

unsigned long one_of(unsigned long count, const unsigned long values[])
{
    return values[below(count)];
}

unsigned long near_a_limit(void)
{
    static const unsigned long limits[] = { 0, 1, 2, 7, 8, 9, 15, 16, 62, 63, 64, 65, 66, 126, 127, 128, 129, 254, 255, 256, 257 };
    static const unsigned long high[] = { 1ul << 8, 1ul << 16, 1ul << 31, 1ul << 32, 1ul << 63, ~0ul << 8, ~0ul << 16, ~0ul << 32 };
    unsigned long near = one_of(21, limits);

    switch (below(16)) {
    case 0:
        return any();
    case 1:
        return ~0ul - below(3);
    case 2:
    case 3:
        return near + one_of(8, high);
    default:
        return near;
    }
}

unsigned long place_in(unsigned long count)
{
    switch (below(4)) {
    case 0:
        return count - 1;
    case 1:
        return 0;
    default:
        return below(count);
    }
}

unsigned long room_for(unsigned long samples, unsigned long most)
{
    switch (below(8)) {
    case 0:
        return samples > 0 ? samples - 1 : 0;
    case 1:
        return below(samples + 1);
    case 2:
        return once_in(4) ? 0 : samples + 1;
    case 3:
        return samples + below(100);
    case 4:
        return once_in(10) ? most - below(100) : samples + below(1000);
    default:
        return samples;
    }
}

/* ---- memory ---- */

enum { PAGES = 65536 };                                 /* a multiple of every machine's page */

static unsigned char *mapped(unsigned long size)
{
    unsigned char *at = mmap(NULL, size, PROT_READ | PROT_WRITE, MAP_PRIVATE | MAP_ANONYMOUS, -1, 0);

    must(at != (unsigned char *)-1, "no memory");
    return at;
}

struct fence fenced(unsigned long most)
{
    unsigned long size = (most + PAGES - 1) / PAGES * PAGES;
    struct fence fence;
    unsigned char *at = mapped(size + PAGES);

    must(mprotect(at + size, PAGES, PROT_NONE) == 0, "no fence");
    fence.end = at + size;
    fence.most = most;
    return fence;
}

const void *put_up(const struct fence *fence, const void *from, unsigned long size)
{
    must(size <= fence->most, "a list too long for its fence");
    return memcpy(fence->end - size, from, size);
}

struct stretch stretched(unsigned long most)
{
    struct stretch stretch;

    stretch.got = mapped(most + 3 * GUARD);
    stretch.want = mapped(most + 3 * GUARD);
    stretch.before = mapped(most + 3 * GUARD);
    stretch.front = GUARD;
    stretch.size = 0;
    stretch.most = most;
    return stretch;
}

/* The random bytes are cut from a stock of them, made once, at a random place. */
static void fill(struct stretch *stretch, unsigned long front, unsigned long size)
{
    static unsigned long stock[8192];
    unsigned long whole = front + size + GUARD, done = 0;

    must(size <= stretch->most, "a stretch too long for its memory");
    while (stock[0] == 0) {
        unsigned long i;

        for (i = 0; i < 8192; i++)
            stock[i] = any();
    }
    while (done < whole) {
        unsigned long from = below(4096), part = sizeof stock - 8 * from;

        if (part > whole - done)
            part = whole - done;
        memcpy(stretch->before + done, stock + from, part);
        done += part;
    }
    memcpy(stretch->got, stretch->before, whole);
    memcpy(stretch->want, stretch->before, whole);
    stretch->front = front;
    stretch->size = size;
}

void lend(struct stretch *stretch, unsigned long size)
{
    fill(stretch, GUARD, size);
}

void lend_anywhere(struct stretch *stretch, unsigned long size)
{
    fill(stretch, GUARD + below(GUARD), size);
}

void *to_library(const struct stretch *stretch)
{
    return stretch->got + stretch->front;
}

void *to_twin(const struct stretch *stretch)
{
    return stretch->want + stretch->front;
}

int same(const struct stretch *stretch, unsigned long written)
{
    unsigned long whole = stretch->front + stretch->size + GUARD, kept = stretch->front + written;

    return written <= stretch->size
        && memcmp(stretch->got, stretch->want, whole) == 0
        && memcmp(stretch->got, stretch->before, stretch->front) == 0
        && memcmp(stretch->got + kept, stretch->before + kept, whole - kept) == 0;
}

/* ---- counts ---- */

void count_answer(struct seen *seen, unsigned long number, unsigned long place)
{
    seen->compared++;
    if (number > 16)
        return;                                         /* the twin never gives it */
    seen->times[number]++;
    if (seen->farthest[number] < place)
        seen->farthest[number] = place;
}

void report(const struct seen *seen, const unsigned char refusals[], unsigned long far_on)
{
    int i;

    printf("%s: %lu compared; not refused %lu", seen->name, seen->compared, seen->times[0]);
    for (i = 0; refusals[i] != 0; i++) {
        unsigned number = refusals[i];

        printf(", refused %u: %lu", number, seen->times[number]);
        if (seen->farthest[number] > 0)
            printf(" (places up to %lu)", seen->farthest[number]);
    }
    printf("\n");
    for (i = 0; refusals[i] != 0; i++) {
        unsigned number = refusals[i];
        int placed = number == 1 || number == 6 || number == 7 || number == 13;

        if (seen->times[number] == 0 || (placed && seen->farthest[number] < far_on)) {
            printf("WRONG: %s, refusal %u was never reached, or never far on\n", seen->name, number);
            faults++;
        }
    }
    if (seen->times[0] == 0)
        fault(seen->name, 0, "nothing was answered without a refusal");
}

/* ---- faults ---- */

unsigned long faults;

void fault(const char *function, unsigned long number, const char *what)
{
    faults++;
    if (faults <= SHOWN)
        printf("WRONG: %s, input %lu: %s\n", function, number, what);
}

void show(const struct stretch *answers)
{
    const unsigned long *got = to_library(answers), *want = to_twin(answers);
    unsigned long i;

    printf("    library:");
    for (i = 0; i < answers->size / sizeof *got; i++)
        printf(" %lu", got[i]);
    printf("; twin:");
    for (i = 0; i < answers->size / sizeof *want; i++)
        printf(" %lu", want[i]);
    printf("\n");
}

void must(int holds, const char *what)
{
    if (!holds) {
        printf("the test itself failed: %s\n", what);
        exit(2);
    }
}
