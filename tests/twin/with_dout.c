/* Makes of a capture text what a probe on the wires would have recorded, by the plain twin: a raw stream in which each sample has the DOUT
 * that the host sees after it. A probe sees no contacts, so the scans are left out; after one that changes DOUT comes a sample with the
 * levels as they are.
 *
 *     with_dout             the text of standard input, to standard output
 *     with_dout TEXT...     each TEXT, to the file TEXT.raw, and to TEXT.reads a line for each read word that the last chip obeyed with
 *                           KEYB on: the code that it held; 1 where an interrupt stood, or 0; and what became of its readout: ended
 *                           after the seventh DCLK fall, cut by a LOAD rise before that, or left open */
#include "libc.h"
#include "twin.h"

enum { DCLK = 2, LOAD = 4 };
#define MOST_READS (LONGEST_TEXT / 4)                   /* a LOAD rise takes two samples */

static unsigned char text[LONGEST_TEXT + 1];            /* one byte more is enough to see that a text is too long */
static unsigned char out[ROOM(WORD_LINE)];              /* the text's words, and then the stream, which is shorter than the text */

static struct read_word {
    unsigned code, found;
    const char *end;
} reads[MOST_READS];
static unsigned long read_words;

static struct chain chain;
static unsigned char *to;

static const struct chip *last(void)
{
    return &chain.chips[chain.n - 1];
}

static unsigned long seen(void)
{
    unsigned long answer[3];

    twin_sees(&chain, answer);
    return answer[2];
}

static void record(unsigned char sample)
{
    *to++ = (unsigned char)(0x10 + 8 * seen() + sample);
}

/* Plays a sample, and notes what became of a readout. */
static void play_one(unsigned char sample)
{
    struct chip before = *last();
    unsigned rises = ~(unsigned)chain.levels & sample, falls = chain.levels & ~(unsigned)sample;

    play(&chain, &sample, 1);
    if (falls & DCLK && before.left > 0 && --before.left == 0)
        reads[read_words - 1].end = "ended";
    if (rises & LOAD && before.left > 0)
        reads[read_words - 1].end = "cut";
    if (rises & LOAD && last()->left > 0) {
        reads[read_words].code = before.code;
        reads[read_words].found = before.interrupt;
        reads[read_words++].end = "open";
    }
    record(sample);
}

static void take_scan(const unsigned char *frame)
{
    unsigned long before = seen(), answer[4];

    twin_scan(&chain, frame[1], frame + 2, answer);
    if (seen() != before)
        record(chain.levels);
}

static unsigned digit(unsigned char c)
{
    return c <= '9' ? c - '0' : c - 'A' + 10;
}

/* The text in `text`, of so many bytes, to `out`; gives how many bytes it has, or 0 where the text is refused, which is said. */
static unsigned long recorded(unsigned long length, const char *name)
{
    unsigned long answer[3], at;

    twin_replay(text, length, out, answer);
    if (answer[0] != 0) {
        fprintf(stderr, "with_dout: %s: refusal %lu, line %lu\n", name, answer[0], answer[1]);
        return 0;
    }
    to = out;
    read_words = 0;
    for (at = 0; at < length; at++) {                   /* its lines are of the form */
        unsigned char frame[33];
        int size = 0, i;

        for (; text[at] != '\n'; at += 2)
            frame[size++] = (unsigned char)(16 * digit(text[at]) + digit(text[at + 1]));
        if (frame[0] == 0) {
            start(&chain, frame[2]);
            memcpy(to, frame, 3);
            to += 3;
        } else if (frame[0] == 1) {
            for (i = 1; i < size; i++)
                play_one(frame[i]);
        } else {
            take_scan(frame);
        }
    }
    return (unsigned long)(to - out);
}

static FILE *beside(const char *name, const char *ending)
{
    char path[4096];

    return snprintf(path, sizeof path, "%s.%s", name, ending) < (int)sizeof path ? fopen(path, "wb") : NULL;
}

/* Says whether it could be read, recorded and written. */
static int recorded_file(const char *name)
{
    FILE *from = fopen(name, "rb"), *stream = beside(name, "raw"), *list = beside(name, "reads");
    unsigned long size, i;
    int done;

    if (from == NULL || stream == NULL || list == NULL)
        return 0;
    size = recorded(fread(text, 1, sizeof text, from), name);
    done = size > 0 && fwrite(out, 1, size, stream) == size;
    for (i = 0; done && i < read_words; i++)
        fprintf(list, "%02X %u %s\n", reads[i].code, reads[i].found, reads[i].end);
    fclose(from);
    done &= fclose(stream) == 0;
    done &= fclose(list) == 0;
    return done;
}

int main(int count, char **given)
{
    unsigned long size;
    int i, done = 1;

    if (count == 1) {
        size = recorded(fread(text, 1, sizeof text, stdin), "the capture");
        return size == 0 || fwrite(out, 1, size, stdout) != size || fclose(stdout) != 0;
    }
    for (i = 1; i < count; i++)
        done &= recorded_file(given[i]);
    return !done;
}
