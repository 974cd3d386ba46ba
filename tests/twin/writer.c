/* "The writer and the finder". */

static void refuse(unsigned long answer[], int size, unsigned long number, unsigned long place)
{
    int i;

    for (i = 0; i < size; i++)
        answer[i] = 0;
    answer[0] = number;
    answer[1] = place;
}

/* A row: last chip first, each word lowest bit first. Gives where the next row begins. */
static unsigned char *write_row(unsigned long n, const unsigned short *row, unsigned char *out)
{
    while (n-- > 0) {
        unsigned word = row[n];
        int place;

        for (place = 0; place < 12; place++) {
            unsigned bit = word >> place & 1;

            *out++ = (unsigned char)(4 + bit);
            *out++ = (unsigned char)(6 + bit);
        }
    }
    *out++ = 3;
    *out++ = 7;
    return out;
}

void twin_write(unsigned long n, const unsigned short *words, unsigned long count,
                unsigned char *out, unsigned long room, unsigned long answer[3])
{
    unsigned char off[MOST] = { 0 };                    /* whether the chip's last reset or system word so far left nothing on */
    unsigned long samples, i;

    if (n < 1 || n > MOST) {
        refuse(answer, 3, 3, 0);
        return;
    }
    if (count % n != 0) {
        refuse(answer, 3, 4, 0);
        return;
    }
    if (count / n > MOST_ROWS) {
        refuse(answer, 3, 5, 0);
        return;
    }
    for (i = 0; i < count; i++) {
        int kind = kind_of(words[i]);

        if (kind == UNLISTED) {
            refuse(answer, 3, 6, i);
            return;
        }
        if (kind == SYSTEM && field(words[i], SYSTEM, KEYB) && i % n != n - 1) {
            refuse(answer, 3, 7, i);
            return;
        }
        if (kind == RESET)
            off[i % n] = 1;
        if (kind == SYSTEM)
            off[i % n] = !field(words[i], SYSTEM, KEYB) && !field(words[i], SYSTEM, DISP);
        if (kind == SLEEP && !off[i % n]) {             /* C-17: no sleep with the lights on */
            refuse(answer, 3, 13, i);
            return;
        }
    }
    samples = count / n * (24 * n + 2);
    if (room < samples) {
        refuse(answer, 3, 8, 0);
        return;
    }
    for (i = 0; i < count; i += n)
        out = write_row(n, words + i, out);
    answer[0] = 0;
    answer[1] = 0;
    answer[2] = samples;
}

void twin_find(unsigned char levels, const unsigned char *samples, unsigned long count, unsigned long answer[5])
{
    unsigned long bad, i;

    if (levels > 7) {
        refuse(answer, 5, 12, 0);
        return;
    }
    bad = bad_sample(samples, count);
    if (bad < count) {
        refuse(answer, 5, 1, bad);
        return;
    }
    answer[0] = 0;
    answer[1] = 0;
    for (i = 0; i < count; i++) {
        if (~levels & samples[i] & LOAD) {              /* it was low and is high */
            answer[2] = 1;
            answer[3] = i;
            answer[4] = i + 1;
            return;
        }
        levels = samples[i];
    }
    answer[2] = 0;
    answer[3] = 0;
    answer[4] = count;
}
