/* What the parts of the test share: random numbers by a seed, memory with guards, the comparison, and the counts of refusals. */
#ifndef CHECK_H
#define CHECK_H

/* ---- random numbers, the same for the same seed ---- */

void start_from(unsigned long seed);
unsigned long any(void);                                /* any 64 bits */
unsigned long below(unsigned long bound);               /* 0 to bound - 1 */
int once_in(unsigned long times);                       /* true once in so many times */
unsigned long one_of(unsigned long count, const unsigned long values[]);
unsigned long near_a_limit(void);                       /* of some field, or one that only its low bits would make small */
unsigned long place_in(unsigned long count);            /* of a list: the first, the last or any */

/* A buffer's size: exact, one short, a little or much longer (up to the most), shorter, or none at all. */
unsigned long room_for(unsigned long samples, unsigned long most);

/* ---- what is lent to be read: it ends where no byte can be read ---- */

struct fence {
    unsigned char *end;
    unsigned long most;
};
struct fence fenced(unsigned long most);
const void *put_up(const struct fence *fence, const void *from, unsigned long size);

/* ---- what is lent to be written: three copies of the same random bytes, a guard before and behind the lent ones ---- */

enum { GUARD = 64 };
struct stretch {
    unsigned char *got;                                 /* for the library */
    unsigned char *want;                                /* for the twin */
    unsigned char *before;                              /* for neither */
    unsigned long front;                                /* the size of the guard before the lent bytes */
    unsigned long size;                                 /* of the lent bytes */
    unsigned long most;
};
struct stretch stretched(unsigned long most);
void lend(struct stretch *stretch, unsigned long size); /* new random bytes everywhere */
void lend_anywhere(struct stretch *stretch, unsigned long size); /* the same, at any address and not at a multiple of 8 */
void *to_library(const struct stretch *stretch);
void *to_twin(const struct stretch *stretch);

/* Whether the library left what the twin left, and, past the first `written` bytes and in both guards, what was there before. */
int same(const struct stretch *stretch, unsigned long written);

/* ---- counts ---- */

/* What was seen of a function's answers. */
struct seen {
    const char *name;
    unsigned long compared;
    unsigned long times[17];                            /* per refusal; 0 is none */
    unsigned long farthest[17];                         /* the highest place that it named */
};
void count_answer(struct seen *seen, unsigned long number, unsigned long place);

/* Prints the counts; a refusal of the list (ended by 0) that was never given, or not at a place so far on, is a fault. No refusal
 * counts as one of them. */
void report(const struct seen *seen, const unsigned char refusals[], unsigned long far_on);

/* ---- faults ---- */

enum { SHOWN = 10 };                                    /* so many are printed, the others only counted */
extern unsigned long faults;
void fault(const char *function, unsigned long number, const char *what); /* the number of the input */
void show(const struct stretch *answers);               /* the numbers of both answers */
void must(int holds, const char *what);                 /* a fault of the test itself ends it */

/* ---- a random capture text, a third of them damaged ---- */

enum { MOST_TEXT = 81920 };
const unsigned char *random_text(unsigned long *size);

/* ---- the parts of the test ---- */

void compare_words(unsigned long count);
void compare_samples(unsigned long count);
void compare_texts(unsigned long count);
void compare_tallies(unsigned long count);
void compare_ch450(unsigned long count);
void compare_panels(unsigned long count);
void compare_blocks(unsigned long count);
void compare_settings(unsigned long count);
void compare_capture(const char *text, const char *got);

#endif
