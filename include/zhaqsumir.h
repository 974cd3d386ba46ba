/* The proved functions of Zhaqsumir for C: words, the writer, the finder, the replay of a capture and the tally over captures; a panel of
 * CH452 chips that the caller keeps, into which blocks of samples are played as they arrive; a kiosk's settings, named zhaqsumir_settings_:
 * their text read and written, and the rows that set a panel to them; and, named zhaqsumir_ch450_, those for the one CH450 of an old kiosk:
 * its words, its writer, and a panel that is played.
 *
 * Link libzhaqsumir.a, for x86-64 Linux: a copy of crates/zhaqsumir_c/out/libzhaqsumir_c.a, which `rt lib` makes in crates/zhaqsumir_c. C11
 * or C++11; no other header is needed.
 * "Document 01" is the requirements, and its words are used: a word is a 12-bit command of a CH452, a sample is the three wires at one
 * moment, N is the number of chips in the chain, a row is one word for each chip. A CH450 is alone on two wires: its word is the two bytes
 * of a command, byte 1 high, and its sample is these two wires.
 *
 * Every function writes an array of numbers, the answer. Its first number is 0, or the number of a refusal; its second is the place that
 * the refusal names, or 0. Places count from 0 in what this call was given; only the lines of a text count from 1. What answer, out, rises
 * and the words of zhaqsumir_settings_rows held before never alters the answer. No function keeps anything between calls, has a heap or
 * calls the system, so several threads may call at once, each with its own memory; a tally or a panel that goes on from call to call is the
 * caller's memory too. Of the C library the archive needs memcpy and memset alone.
 *
 * No value is a bad call: any word, level, N, chip, field, sample, contact, count, key code, number of a panel or of settings and byte of
 * text is answered, at worst by a refusal. Bad calls are those that C allows and Rattle doesn't. They are the caller's: nothing tests them,
 * and after one nothing that is said here holds.
 *   - No pointer is null, not even where its length is 0 or where nothing is written.
 *   - A pointer is aligned for its type: an even address for words, a multiple of 8 for unsigned long and for a zhaqsumir_panel.
 *   - A length counts elements, and its pointer has at least so many. An array has at least the size that stands here.
 *   - What a function writes (answer, out, rises; of a tally chips, codes and largest; panel, where it is started, played or scanned;
 *     words, where settings are turned into rows) overlaps nothing else that the call is given. What it only reads may overlap.
 *   - All of it is the caller's own memory during the whole call, and can be read; what a function writes can be written. Bytes of answer,
 *     out and rises, of a panel that is started, and of words that settings are turned into, that were never set are no fault. No thread,
 *     interrupt or device writes any of it, or reads what the function writes, before the call is over.
 */
#ifndef ZHAQSUMIR_H
#define ZHAQSUMIR_H

#ifdef __cplusplus
static_assert(sizeof(unsigned short) == 2 && sizeof(unsigned long) == 8 && sizeof(void *) == 8, "x86-64 Linux");
extern "C" {
#else
_Static_assert(sizeof(unsigned short) == 2, "unsigned short is 16 bits, uint16_t");
_Static_assert(sizeof(unsigned long) == 8, "unsigned long is 64 bits, uint64_t and size_t");
_Static_assert(sizeof(void *) == 8, "an address is 64 bits");
#endif

/* A sample is a byte 0 to 7: DIN + 2 DCLK + 4 LOAD. */
enum {
    ZHAQSUMIR_DIN = 1,
    ZHAQSUMIR_DCLK = 2,
    ZHAQSUMIR_LOAD = 4,
    ZHAQSUMIR_IDLE = 7 /* all three high */
};

/* A sample of a CH450's two wires is a byte 0 to 3: SCL + 2 SDA. */
enum {
    ZHAQSUMIR_CH450_SCL = 1,
    ZHAQSUMIR_CH450_SDA = 2,
    ZHAQSUMIR_CH450_IDLE = 3 /* both high */
};

/* Sizes. */
#define ZHAQSUMIR_MOST_CHIPS 8
#define ZHAQSUMIR_MOST_ROWS 64
#define ZHAQSUMIR_ROW_SAMPLES(n) (24ul * (n) + 2ul)     /* the samples of a row for n chips */
#define ZHAQSUMIR_MOST_TEXT 65536ul                     /* the bytes of a capture text, at most */
/* the bytes that a replay is lent */
#define ZHAQSUMIR_REPLAY_ROOM (ZHAQSUMIR_MOST_CHIPS / 4 * 9 * ZHAQSUMIR_MOST_TEXT + 13)
#define ZHAQSUMIR_TALLY_CHIPS (ZHAQSUMIR_MOST_CHIPS * 4) /* the counts of a tally, four for each chip */
#define ZHAQSUMIR_TALLY_CODES 128                       /* and one for each code of seven bits */
#define ZHAQSUMIR_PANEL 202                             /* the numbers of a panel of CH452 chips: 2, and 25 for each of 8 chips */
#define ZHAQSUMIR_MOST_RISES(count) ((count) / 2 + (count) % 2) /* the LOAD rises in so many samples, at most */
#define ZHAQSUMIR_SETTINGS 73                           /* the numbers of a kiosk's settings: N, and nine for each of 8 chips */
#define ZHAQSUMIR_SETTINGS_TEXT 111                     /* the bytes of a settings text, at most: 7, and 13 for each chip */
#define ZHAQSUMIR_SETTINGS_WORDS 32                     /* the words of the rows of settings, at most: 4 for each chip */
#define ZHAQSUMIR_CH450_MOST_COMMANDS 64
#define ZHAQSUMIR_CH450_COMMAND_SAMPLES 40ul            /* the samples of a CH450 command */
#define ZHAQSUMIR_CH450_PANEL 14                        /* the numbers of a CH450's panel */

/* The refusals, as document 01 numbers them. */
enum {
    ZHAQSUMIR_NO_REFUSAL = 0,
    ZHAQSUMIR_BAD_SAMPLE = 1,    /* a sample is above 7, or of two wires above 3 (the lowest place is named) */
    ZHAQSUMIR_BAD_SCAN_CHIP = 2, /* a scan's chip is not below N (inside text it is 10) */
    ZHAQSUMIR_BAD_LIT_CHIP = 2,  /* the chip that is asked for its segments is not below N */
    ZHAQSUMIR_BAD_CHIPS = 3,     /* N is not 1 to 8 */
    ZHAQSUMIR_PART_ROW = 4,      /* list length isn't a multiple of N */
    ZHAQSUMIR_MANY_ROWS = 5,     /* more than 64 rows */
    ZHAQSUMIR_MANY_COMMANDS = 5, /* more than 64 commands of a CH450 */
    ZHAQSUMIR_BAD_WORD = 6,      /* a word given to the writer or the decoder is unlisted or above 4,095 */
    ZHAQSUMIR_EARLY_KEYPAD = 7,  /* a system word with KEYB 1 for a chip that isn't the last */
    ZHAQSUMIR_SHORT_BUFFER = 8,  /* the buffer is shorter than the samples, or than the settings' text */
    ZHAQSUMIR_SHORT_LIST = 8,    /* the list is shorter than the LOAD rises */
    ZHAQSUMIR_BAD_FIELD = 9,     /* a command field is out of range, or a number of settings */
    ZHAQSUMIR_BAD_KEY = 9,       /* a key code is above 127 */
    ZHAQSUMIR_BAD_COMMAND = 9,   /* a word of a CH450's list is neither of parameters nor of a digit (the lowest place is named) */
    ZHAQSUMIR_BAD_LINE = 10,     /* a line isn't of the form that zhaqsumir_replay asks for, the first missing included */
    ZHAQSUMIR_LONG_TEXT = 11,    /* text longer than 65,536 bytes */
    /* 12 is for values that are handed over */
    ZHAQSUMIR_BAD_LEVELS = 12,   /* the levels given are above 7 */
    ZHAQSUMIR_BAD_LARGEST = 12,  /* a tally's largest N is above 8 */
    ZHAQSUMIR_BAD_PANEL = 12,    /* the levels of a panel of CH452 chips, or a number of a chip below N, are out of the range that stands
                                  * below; or the numbers are of no panel that a CH450 can have */
    ZHAQSUMIR_LIT_SLEEP = 13,    /* a sleep word for a chip whose display and keypad weren't switched off before it in the same list */
    ZHAQSUMIR_NEWER_VERSION = 14,/* a settings text has a version above 01 (the version is named) */
    ZHAQSUMIR_BAD_SETTING = 15,  /* a line isn't of the form that zhaqsumir_settings_read asks for, or is missing (the line is named) */
    ZHAQSUMIR_FULL_COUNT = 16    /* some count of a tally plus the line's number of samples and scans is above 2^64 - 1 */
};

/* The sixteen kinds of command, and their fields in order. */
enum {
    ZHAQSUMIR_NO_OPERATION = 0,
    ZHAQSUMIR_BAR_LEVEL = 1,          /* level 0 to 127; from 64 on all 64 segments are lit */
    ZHAQSUMIR_SEGMENT_CLEAR = 2,      /* address 0 to 63: 8 SEG + DIG */
    ZHAQSUMIR_SEGMENT_SET = 3,        /* address 0 to 63 */
    ZHAQSUMIR_RESET = 4,
    ZHAQSUMIR_SLEEP = 5,
    ZHAQSUMIR_SHIFT_LEFT = 6,
    ZHAQSUMIR_SHIFT_RIGHT = 7,
    ZHAQSUMIR_ROTATE_LEFT = 8,
    ZHAQSUMIR_ROTATE_RIGHT = 9,
    ZHAQSUMIR_CUSTOM_CHARACTER = 10,  /* shape 0 to 127 */
    ZHAQSUMIR_SYSTEM_PARAMETERS = 11, /* INTM, SSPD, DPLR, KEYB, DISP: 0 or 1 each */
    ZHAQSUMIR_DISPLAY_PARAMETERS = 12,/* MODE 0 or 1, LIMIT 0 to 7 (0 means 8) */
    ZHAQSUMIR_BLINK_BYTE = 13,        /* byte 0 to 255 */
    ZHAQSUMIR_READ_KEY = 14,
    ZHAQSUMIR_LOAD_DIGIT = 15         /* digit 0 to 7, byte 0 to 255 */
};

/* The three kinds of command of a CH450, and their fields in order. */
enum {
    ZHAQSUMIR_CH450_PARAMETERS = 0,   /* SLEEP 0 or 1, INTENS 0 to 3, KEYB 0 or 1, DISP 0 or 1; byte 1 is 48H */
    ZHAQSUMIR_CH450_LOAD_DIGIT = 1,   /* digit 2 to 7, byte 0 to 255; byte 1 is 64H for DIG2, and 2 more for each next digit */
    ZHAQSUMIR_CH450_READ_KEY = 2      /* byte 1 is 4FH */
};

/* Places in the answers, and how many numbers an answer has. */
enum {
    ZHAQSUMIR_NUMBER = 0,             /* of every answer: the refusal, or 0 */
    ZHAQSUMIR_PLACE = 1,              /* of every answer: the place that the refusal names, or 0; of a text the line, from 1 */

    ZHAQSUMIR_DECODED_KIND = 2,
    ZHAQSUMIR_DECODED_FIELDS = 3,     /* five of them */
    ZHAQSUMIR_DECODE_ANSWER = 8,

    ZHAQSUMIR_ENCODED_WORD = 2,
    ZHAQSUMIR_ENCODE_ANSWER = 3,
    ZHAQSUMIR_COMMAND = 6,            /* what a command takes: a kind and five fields */

    ZHAQSUMIR_SAMPLES_WRITTEN = 2,
    ZHAQSUMIR_WRITE_ANSWER = 3,

    ZHAQSUMIR_RISE_FOUND = 2,
    ZHAQSUMIR_RISE_PLACE = 3,
    ZHAQSUMIR_SAMPLES_PASSED = 4,
    ZHAQSUMIR_FIND_ANSWER = 5,

    ZHAQSUMIR_BYTES_WRITTEN = 2,
    ZHAQSUMIR_REPLAY_ANSWER = 3,

    ZHAQSUMIR_TALLY_ANSWER = 2,

    ZHAQSUMIR_START_ANSWER = 2,

    ZHAQSUMIR_RISES_LISTED = 2,
    ZHAQSUMIR_BLOCK_ANSWER = 3,

    ZHAQSUMIR_SCAN_TOLD = 2,          /* one of the four things below */
    ZHAQSUMIR_SCAN_CODE = 3,          /* the code that was recorded, or 0 */
    ZHAQSUMIR_SCAN_ANSWER = 4,

    ZHAQSUMIR_SEGMENTS = 2,           /* eight of them, DIG0 first */
    ZHAQSUMIR_LIT_ANSWER = 10,

    ZHAQSUMIR_DOUT_SEEN = 2,          /* 0 low, 1 high */
    ZHAQSUMIR_SEES_ANSWER = 3,

    ZHAQSUMIR_SETTINGS_READ = 2,      /* 73 of them */
    ZHAQSUMIR_SETTINGS_READ_ANSWER = 75,

    ZHAQSUMIR_SETTINGS_WRITTEN = 2,   /* how many bytes, or words */
    ZHAQSUMIR_SETTINGS_WRITE_ANSWER = 3,

    ZHAQSUMIR_CH450_COMMAND = 5,      /* what a command of a CH450 takes: a kind and four fields; its answers are as above */

    ZHAQSUMIR_CH450_READS = 2,
    ZHAQSUMIR_CH450_PLAY_ANSWER = 3,

    ZHAQSUMIR_CH450_SEGMENTS = 2,     /* six of them, DIG2 first */
    ZHAQSUMIR_CH450_LIT_ANSWER = 8
};

/* The four counts of a chip in a tally: count i of chip k is chips[4 * k + i]. */
enum {
    ZHAQSUMIR_RECORDED = 0,           /* codes recorded */
    ZHAQSUMIR_READ = 1,               /* read words that found an interrupt: the chip obeyed read key while KEYB was on and one stood */
    ZHAQSUMIR_OVERWRITTEN = 2,        /* codes recorded over an unread one, while an interrupt stood */
    ZHAQSUMIR_CLEARED = 3             /* interrupts cleared by reset, or by system parameters with KEYB 0 */
};

/* What a scan did: one of four things. */
enum {
    ZHAQSUMIR_SCAN_NOTHING = 0,       /* nothing recorded */
    ZHAQSUMIR_SCAN_KEY = 1,           /* a code recorded */
    ZHAQSUMIR_SCAN_OVER_UNREAD = 2,   /* a code recorded over an unread one, which is lost: an interrupt stood before the scan */
    ZHAQSUMIR_SCAN_RELEASE = 3        /* a release noted: bit 6 of the code was 1 and is 0 */
};

/* The 202 numbers of a panel of CH452 chips: these two, then 25 for each of 8 chips. Number i of chip k is
 * numbers[ZHAQSUMIR_PANEL_CHIP(k) + i]. */
enum {
    ZHAQSUMIR_PANEL_CHIPS = 0,        /* N, 1 to 8 */
    ZHAQSUMIR_PANEL_LEVELS = 1        /* the sample last played, 0 to 7; the next block goes on from it */
};
#define ZHAQSUMIR_CHIP_NUMBERS 25
#define ZHAQSUMIR_PANEL_CHIP(k) (2ul + ZHAQSUMIR_CHIP_NUMBERS * (k))

/* The 25 numbers of a chip, each with its range; a bit is 0 or 1. A reset keeps the first three; the others become 0, the last scan 64. */
enum {
    ZHAQSUMIR_CHIP_REGISTER = 0,      /* 0 to 4,095 */
    ZHAQSUMIR_CHIP_LATCH = 1,         /* a bit, which DOUT shows while KEYB is 0 */
    ZHAQSUMIR_CHIP_READOUT = 2,       /* the code of the readout, 0 to 127; with no bits left that of the last one, any of 0 to 255 */
    ZHAQSUMIR_CHIP_READOUT_LEFT = 3,  /* the bits of it that are left, 0 to 7; 0 where no readout runs */
    ZHAQSUMIR_CHIP_INTM = 4,          /* a bit; this and the next four are the system parameters */
    ZHAQSUMIR_CHIP_SSPD = 5,          /* a bit */
    ZHAQSUMIR_CHIP_DPLR = 6,          /* a bit */
    ZHAQSUMIR_CHIP_KEYB = 7,          /* a bit */
    ZHAQSUMIR_CHIP_DISP = 8,          /* a bit */
    ZHAQSUMIR_CHIP_MODE = 9,          /* a bit; this and the next one are the display parameters */
    ZHAQSUMIR_CHIP_LIMIT = 10,        /* 0 to 7 (0 means 8) */
    ZHAQSUMIR_CHIP_BLINK = 11,        /* the blink byte, 0 to 255 */
    ZHAQSUMIR_CHIP_CUSTOM = 12,       /* the custom character, 0 to 127 */
    ZHAQSUMIR_CHIP_SLEEPING = 13,     /* a bit */
    ZHAQSUMIR_CHIP_DIGITS = 14,       /* the data bytes of DIG0 to DIG7, eight of them, 0 to 255 each */
    ZHAQSUMIR_CHIP_CODE = 22,         /* the key code, 0 to 127 */
    ZHAQSUMIR_CHIP_INTERRUPT = 23,    /* a bit: 1 while an interrupt stands */
    ZHAQSUMIR_CHIP_LAST_SCAN = 24     /* the smallest closed address of the last scan taken awake with KEYB 1, 0 to 63, or 64: none */
};
enum { ZHAQSUMIR_NO_KEY = 64 };       /* the last scan closed no contact; so it is too after a reset, KEYB 0 or a scan that wakes a chip */

/* A panel of CH452 chips. It is the caller's, goes on from call to call, and may be copied, kept and handed over again like any struct. */
typedef struct {
    unsigned long numbers[ZHAQSUMIR_PANEL];
} zhaqsumir_panel;

/* The 73 numbers of a kiosk's settings: N, then nine for each of 8 chips. Number i of chip k is settings[ZHAQSUMIR_SETTINGS_CHIP(k) + i];
 * it is number ZHAQSUMIR_CHIP_INTM + i of the chip in a panel. */
enum { ZHAQSUMIR_SETTINGS_CHIPS = 0 };/* N, 1 to 8 */
#define ZHAQSUMIR_KEPT_NUMBERS 9
#define ZHAQSUMIR_SETTINGS_CHIP(k) (1ul + ZHAQSUMIR_KEPT_NUMBERS * (k))

/* The nine numbers of a chip's settings, each with its range; a bit is 0 or 1. */
enum {
    ZHAQSUMIR_KEPT_INTM = 0,          /* a bit; this and the next four are the system parameters */
    ZHAQSUMIR_KEPT_SSPD = 1,          /* a bit */
    ZHAQSUMIR_KEPT_DPLR = 2,          /* a bit */
    ZHAQSUMIR_KEPT_KEYB = 3,          /* a bit */
    ZHAQSUMIR_KEPT_DISP = 4,          /* a bit */
    ZHAQSUMIR_KEPT_MODE = 5,          /* a bit; this and the next one are the display parameters */
    ZHAQSUMIR_KEPT_LIMIT = 6,         /* 0 to 7 (0 means 8) */
    ZHAQSUMIR_KEPT_BLINK = 7,         /* the blink byte, 0 to 255 */
    ZHAQSUMIR_KEPT_CUSTOM = 8         /* the custom character, 0 to 127 */
};

/* The 14 numbers of a CH450's panel. */
enum {
    ZHAQSUMIR_CH450_LEVELS = 0,       /* the sample last played */
    ZHAQSUMIR_CH450_RUNNING = 1,      /* 1 while a transfer runs, from its start on; after a stop 0 */
    ZHAQSUMIR_CH450_RISES = 2,        /* SCL rises since its start, 20 for any number above 19; 0 where none runs */
    ZHAQSUMIR_CH450_BITS = 3,         /* SDA at these rises, the last one in bit 0, of more than 19 the last 19; 0 where none runs */
    ZHAQSUMIR_CH450_SLEEP = 4,        /* 0 or 1; this and the next three are the parameters */
    ZHAQSUMIR_CH450_INTENS = 5,       /* 0 to 3 */
    ZHAQSUMIR_CH450_KEYB = 6,         /* 0 or 1 */
    ZHAQSUMIR_CH450_DISP = 7,         /* 0 or 1 */
    ZHAQSUMIR_CH450_DIGITS = 8        /* the data bytes of DIG2 to DIG7, six of them */
};

/* The numbers of a panel at power-on: the lines idle, no transfer, every parameter 0, and these bytes in DIG2 to DIG7. The chip's sheet
 * doesn't say which bytes these are.
 *     unsigned long panel[ZHAQSUMIR_CH450_PANEL] = ZHAQSUMIR_CH450_POWER_ON(0, 0, 0, 0, 0, 0); */
#define ZHAQSUMIR_CH450_POWER_ON(dig2, dig3, dig4, dig5, dig6, dig7) \
    { ZHAQSUMIR_CH450_IDLE, 0, 0, 0, 0, 0, 0, 0, dig2, dig3, dig4, dig5, dig6, dig7 }

/* Which command a word is.
 * answer: the refusal, 0, the kind, its five fields; a field that the kind lacks is 0.
 * Refused: BAD_WORD (6) where the word is unlisted or above 4,095; the other numbers are then 0.
 * Where it isn't refused, answer + ZHAQSUMIR_DECODED_KIND may be given to zhaqsumir_encode, which answers the same word, with 0 for
 * the bits that may be anything. */
void zhaqsumir_decode(unsigned short word, unsigned long answer[8]);

/* The word of a command, with 0 for the bits that may be anything.
 * command: the kind and its five fields; fields that the kind lacks are not looked at. It is left as it is.
 * answer: the refusal, 0, the word.
 * Refused: BAD_FIELD (9) where the kind is above 15 or a field is out of the range above, a bit above 1 included; the word is
 * then 0. */
void zhaqsumir_encode(const unsigned long command[6], unsigned long answer[3]);

/* The samples that send rows of words to a chain of n chips.
 * words: count of them, row by row, chip 0 first in each row; 0 to 64 rows. They are left as they are.
 * out, room: the buffer and how many bytes it has. A row takes ZHAQSUMIR_ROW_SAMPLES(n) bytes, and all rows count / n times as
 * many, one row after another from the front of out. Bytes past the written ones keep what they hold.
 * answer: the refusal, the place, the samples written.
 * Refused, where several hold the first of them: BAD_CHIPS (3); PART_ROW (4); MANY_ROWS (5); then, from the first word on, BAD_WORD
 * (6), EARLY_KEYPAD (7) or LIT_SLEEP (13), with the place of that word in words; SHORT_BUFFER (8). Then out is left whole as it was,
 * and 0 samples are written.
 * LIT_SLEEP is for a sleep word (202H) unless the nearest earlier reset (201H) or system word for that same chip in words exists and is a
 * reset or has KEYB 0 and DISP 0. INTM, SSPD and DPLR may be anything, sleep words between count as neither, and what an earlier call
 * wrote doesn't count. So give each chip system parameters with KEYB 0 and DISP 0 in one row (400H, with the panel's own INTM, SSPD and
 * DPLR) and 202H in a later row of the same call. */
void zhaqsumir_write(unsigned long n, const unsigned short *words, unsigned long count,
                     unsigned char *out, unsigned long room, unsigned long answer[3]);

/* The next LOAD rise in a block of samples: the first sample with LOAD high after one with LOAD low.
 * levels: the sample before the block (ZHAQSUMIR_IDLE at the start). samples: count of them, left as they are.
 * answer: the refusal, the place, 1 where there is a rise and 0 where none, the place of the rise or 0, the samples passed: the
 * place of the rise plus 1, or count where there is none.
 * Refused: BAD_LEVELS (12) where levels are above 7; then BAD_SAMPLE (1), with the lowest place of a sample above 7, anywhere in the
 * block, after a rise too. Then no rise is reported and 0 passed.
 * To go on after a rise: samples + passed, count - passed, and for levels the last sample passed, samples[passed - 1]. Places then
 * count from there. */
void zhaqsumir_find(unsigned char levels, const unsigned char *samples, unsigned long count, unsigned long answer[5]);

/* What a capture text makes the chips do.
 * text, length: the bytes of the text and how many; they are left as they are. A text is lines of upper-case hexadecimal, two
 * digits a byte and nothing between, each ended by 0AH, the last too. The first line is 00 01 N. Every other line is 01 and 1 to 32
 * samples, or 02, a chip below N and 8 scan bytes; byte d, bit s is the contact of DIG d and SEG s. The chips start as reset, the
 * wires idle.
 * out: ZHAQSUMIR_REPLAY_ROOM bytes, 1,179,661: too many for most stacks, and no text writes more. Lines of the same kind are
 * written from its front: for each LOAD rise and chip from 0 up 10, chip, word (two bytes, high first); for each recorded key 11,
 * chip, code, or 12, chip, code where an interrupt stood before the scan: the chip still held a code that no read key had fetched, and
 * that code, the one of this chip's line 11 or 12 before it, is lost; at a refusal 1F, number, line (four bytes, high first), and no
 * more.
 * A key that is let go writes nothing. The rest of out keeps what it holds; no byte 0 is set after the last line.
 * answer: the refusal that the text ended in, or 0; the number of the refused line from 1, or 0; the bytes written.
 * Refused: LONG_TEXT (11), with no line number, and out holds the line 1F0B00000000 alone. BAD_LINE (10), with the line number, and
 * out holds what the lines before it wrote and then 1F0A and that number. The bytes written count the refusal's line too. */
void zhaqsumir_replay(const unsigned char *text, unsigned long length, unsigned char out[ZHAQSUMIR_REPLAY_ROOM],
                      unsigned long answer[3]);

/* Counts what a capture text makes the chips record, and what becomes of it. The counts go on from what the caller hands over, so one
 * call after another, each with the next text, counts several captures; all zero is a fresh tally. Every text starts its chips reset.
 * text, length: as for zhaqsumir_replay.
 * chips: four counts for each of 8 chips, as named above. codes: for each code how many times it was recorded, on all chips together.
 * largest: the largest N of the texts so far, where the first line was accepted. All three are read, and hold the sums afterwards;
 * counts of chips from N on stay.
 * In what one text adds, recorded = read + overwritten + cleared, and one more if an interrupt stands at its end; and what all codes
 * gain is what all chips recorded.
 * answer: the refusal that the text ended in, or 0; the number of the refused line from 1, or 0.
 * Refused: LONG_TEXT (11), with no line number; then BAD_LARGEST (12), where largest holds a number above 8, with no line number. At a
 * line, with its number: BAD_LINE (10), as for zhaqsumir_replay; then, at no first line, FULL_COUNT (16) exactly where some count of
 * chips, also of a chip from N on, or of codes is so large that with 1 more for each sample of the line, or 1 for a scan, it would be
 * above 2^64 - 1. The refused line changes nothing, and what the lines before it counted stands: 11, 12 and a refused first line leave
 * chips, codes and largest as they were. */
void zhaqsumir_tally(const unsigned char *text, unsigned long length, unsigned long chips[ZHAQSUMIR_TALLY_CHIPS],
                     unsigned long codes[ZHAQSUMIR_TALLY_CODES], unsigned long *largest, unsigned long answer[2]);

/* A panel of n chips at the start: the chips reset, with a zero register and a latch of 1, and the wires idle.
 * panel: its 202 numbers are all set, those of chips from n on too, which are reset likewise.
 * answer: the refusal, 0.
 * Refused: BAD_CHIPS (3) where n isn't 1 to 8; panel is then left as it was. */
void zhaqsumir_start(unsigned long n, zhaqsumir_panel *panel, unsigned long answer[ZHAQSUMIR_START_ANSWER]);

/* Plays a block of samples into a panel, which goes on from what the caller hands over, and lists the block's LOAD rises.
 * panel: its numbers, as named above. They are read, and hold the panel after the block, its last sample as the levels; an empty block
 * leaves all as it was. Numbers of chips from N on are not looked at, and stay.
 * samples: count of them, 0 or more, left as they are.
 * rises, room: the list, and how many numbers it has. From its front the places of the LOAD rises are written, in rising order; they count
 * from 0 in this block, whose first sample is a rise too where its LOAD is high and the panel's levels have it low. Numbers past the
 * written ones keep what they hold. Room for ZHAQSUMIR_MOST_RISES(count) is always enough.
 * answer: the refusal, the place, how many rises were listed.
 * Refused, where several hold the first of them: BAD_CHIPS (3), where the panel's N isn't 1 to 8; BAD_PANEL (12); BAD_SAMPLE (1), with the
 * lowest place of a sample above 7, anywhere in the block; SHORT_LIST (8), where the block has more rises than the list has room. Then
 * panel, its levels too, and rises are left whole as they were, and 0 rises are listed.
 * A recording may be cut anywhere, into empty blocks too: where every list is long enough, the blocks one after another lead to the same
 * panel as one call with all of the samples, and list the same rises, the lengths of the blocks before added to their places. One
 * exception: a block with a sample above 7 is refused alone, and those before it have been played, where the one call plays none. After a
 * refused block the panel goes on as if that call had never been made; so one that was refused with 8 may be given again, with a longer
 * list. */
void zhaqsumir_block(zhaqsumir_panel *panel, const unsigned char *samples, unsigned long count,
                     unsigned long *rises, unsigned long room, unsigned long answer[ZHAQSUMIR_BLOCK_ANSWER]);

/* A key scan of one chip of a panel.
 * panel: its numbers. They are read, and hold the panel after the scan: of that chip SLEEPING, CODE, INTERRUPT and LAST_SCAN may change,
 * and no other number.
 * chip: the chip that is scanned, from 0. contacts: byte d, bit s is the contact of DIG d and SEG s, 1 where it is closed; left as
 * they are. The scan's result is the smallest closed address, 8 SEG + DIG.
 * Asleep, a contact on SEG0 to SEG3 wakes the chip, and nothing is recorded; awake with KEYB 0, nothing happens. With KEYB 1 two
 * scans in a row with the same result record its code, 40H + the address, where that isn't the code already, and two without a contact
 * clear bit 6 of the code.
 * answer: the refusal, 0, which of the four things above happened, the code that was recorded or 0.
 * Refused, where several hold the first of them: BAD_CHIPS (3), where the panel's N isn't 1 to 8; BAD_PANEL (12); BAD_SCAN_CHIP (2), where
 * chip isn't below N. Then panel is left as it was, and the last two numbers are 0. */
void zhaqsumir_scan(zhaqsumir_panel *panel, unsigned long chip, const unsigned char contacts[8],
                    unsigned long answer[ZHAQSUMIR_SCAN_ANSWER]);

/* The segments that one chip of a panel lights: none while it sleeps or DISP is 0, and none of a digit that isn't below LIMIT (0 means 8);
 * else with MODE 0 the data bytes, with MODE 1 the characters that their bits 4 to 0 name, and the point where bit 7 is 1. Bit 0 is
 * segment A to bit 6 segment G, bit 7 the point.
 * panel: its numbers, left as they are. chip: the chip that is asked, from 0.
 * answer: the refusal, 0, the bytes of DIG0 to DIG7.
 * Refused, where several hold the first of them: BAD_CHIPS (3), where the panel's N isn't 1 to 8; BAD_PANEL (12); BAD_LIT_CHIP (2), where
 * chip isn't below N. The bytes are then 0. */
void zhaqsumir_lit(const zhaqsumir_panel *panel, unsigned long chip, unsigned long answer[ZHAQSUMIR_LIT_ANSWER]);

/* What the host sees of a panel: the level of the last chip's DOUT. With KEYB 0 that is the chip's latch; with KEYB 1 the next bit of a
 * readout that runs, else 0 while an interrupt stands and 1 while none does.
 * panel: its numbers, left as they are.
 * answer: the refusal, 0, the level.
 * Refused, where both hold the first of them: BAD_CHIPS (3), where the panel's N isn't 1 to 8; BAD_PANEL (12). The level is then 0. */
void zhaqsumir_sees(const zhaqsumir_panel *panel, unsigned long answer[ZHAQSUMIR_SEES_ANSWER]);

/* Reads the text in which a kiosk keeps its panel's settings.
 * text, length: the bytes of the text and how many, of any number; they are left as they are. A text is lines of upper-case hexadecimal,
 * two digits a byte and nothing between, each ended by 0AH, the last too. The first line is 20 01 N, N being 1 to 8. Then comes one line
 * for each chip from 0 up, and nothing more: 21, chip, system byte (INTM 32, SSPD 16, DPLR 8, KEYB 2, DISP 1), display byte (MODE times 8,
 * plus LIMIT), blink byte, custom byte.
 * answer: the refusal, the place, and the settings as 73 numbers, as named above; those of chips from N on are 0.
 * Refused: NEWER_VERSION (14), where the first four characters are 20 and two upper-case digits above 01, whatever follows; the place is
 * that version. Then BAD_SETTING (15), with the number of the first line, from 1, that isn't the one that is due there: of another form,
 * of another chip, with a bit set outside its field, not ended, or past the last chip's; where a line is missing, the number after the
 * last. The 73 numbers are then 0.
 * Where it isn't refused, answer + ZHAQSUMIR_SETTINGS_READ may be given to zhaqsumir_settings_write, which writes the same text. KEYB 1
 * before the last chip is read like any other setting. */
void zhaqsumir_settings_read(const unsigned char *text, unsigned long length, unsigned long answer[ZHAQSUMIR_SETTINGS_READ_ANSWER]);

/* Writes settings as their text, the one that zhaqsumir_settings_read reads back as these settings.
 * settings: 73 numbers, as named above, left as they are. Numbers of chips from N on are not looked at.
 * out, room: the buffer and how many bytes it has. The text takes 7 + 13 N bytes of its front, ZHAQSUMIR_SETTINGS_TEXT at most. Bytes past
 * them keep what they hold; no byte 0 is set after the last line.
 * answer: the refusal, 0, the bytes written.
 * Refused, where several hold the first of them: BAD_CHIPS (3), where N isn't 1 to 8; BAD_FIELD (9), where a number of a chip below N is
 * out of the range above; SHORT_BUFFER (8). Then out is left whole as it was, and 0 bytes are written. */
void zhaqsumir_settings_write(const unsigned long settings[ZHAQSUMIR_SETTINGS], unsigned char *out, unsigned long room,
                              unsigned long answer[ZHAQSUMIR_SETTINGS_WRITE_ANSWER]);

/* The rows that set a panel to settings: four rows of N words, the system, the display, the blink and the custom word of each chip, for
 * zhaqsumir_write. Written and played, they leave each chip with these settings, awake.
 * settings: 73 numbers, as for zhaqsumir_settings_write.
 * words: from its front the words are written, row by row, chip 0 first in each row. Words past them keep what they hold.
 * answer: the refusal, 0, the words written, 4 N.
 * Refused: BAD_CHIPS (3), then BAD_FIELD (9), as for zhaqsumir_settings_write. Then words is left whole as it was, and 0 are written.
 * KEYB 1 before the last chip isn't refused here: zhaqsumir_write refuses these rows, with EARLY_KEYPAD (7), and the place is the lowest
 * such chip. */
void zhaqsumir_settings_rows(const unsigned long settings[ZHAQSUMIR_SETTINGS], unsigned short words[ZHAQSUMIR_SETTINGS_WORDS],
                             unsigned long answer[ZHAQSUMIR_SETTINGS_WRITE_ANSWER]);

/* The word of a CH450 command: byte 1 times 256, plus byte 2, with 0 for the three bits of parameters that are ignored, and for byte 2 of
 * a read (on the wire SDA is let go there: all ones).
 * command: the kind and its four fields; fields that the kind lacks are not looked at. It is left as it is.
 * answer: the refusal, 0, the word.
 * Refused: BAD_FIELD (9) where the kind is above 2 or a field is out of the range above; the word is then 0. */
void zhaqsumir_ch450_encode(const unsigned long command[ZHAQSUMIR_CH450_COMMAND], unsigned long answer[3]);

/* The samples that send commands to a CH450, from idle lines to idle lines.
 * words: count of them, 0 to 64, of parameters and of digits: byte 1 is 48H, or 64H to 6EH and even. Byte 2 is sent as it is. They are
 * left as they are.
 * out, room: the buffer and how many bytes it has. A command takes ZHAQSUMIR_CH450_COMMAND_SAMPLES bytes, one command after another from
 * the front of out. Bytes past the written ones keep what they hold.
 * answer: the refusal, the place, the samples written.
 * Refused, where several hold the first of them: MANY_COMMANDS (5); BAD_COMMAND (9), with the place of the first word that is of
 * neither, a read too; SHORT_BUFFER (8). Then out is left whole as it was, and 0 samples are written. */
void zhaqsumir_ch450_write(const unsigned short *words, unsigned long count, unsigned char *out, unsigned long room,
                           unsigned long answer[3]);

/* Plays a block of samples into a panel, which goes on from what the caller hands over: one call after another, each with the next
 * samples, wherever they are cut, leads to the same panel as one call with all of them, where none is refused, and the reads add up.
 * panel: its numbers, as named above. They are read, and hold the panel after the block.
 * key: the code that the key has, which each read in this block is answered with, whatever SDA was in its byte 2.
 * samples: count of them, left as they are. SDA falling while SCL stays high is a start, and rising a stop; where both lines change in one
 * sample there is a clock edge, and neither. The SCL rises since a start carry byte 1, an acknowledge, byte 2 and an acknowledge, high bit
 * first, each SDA of the sample in which SCL rises, and last the rise for the stop; acknowledges aren't looked at. At a stop after exactly
 * 19 rises since the last start the panel obeys the two bytes: any parameters, digit or read first clears SLEEP, bits 4 to 2 of a parameter
 * byte are ignored, and any other byte 1 does nothing at all. No other sample changes a parameter or a digit.
 * answer: the refusal, the place, how many reads were obeyed.
 * Refused, where several hold the first of them: BAD_PANEL (12), where no samples from power-on, whatever digits that left, lead to these
 * numbers; BAD_KEY (9); BAD_SAMPLE (1), with the lowest place of a sample above 3, anywhere in the block. Then panel is left as it was,
 * and no read is reported. */
void zhaqsumir_ch450_play(unsigned long panel[ZHAQSUMIR_CH450_PANEL], unsigned char key, const unsigned char *samples,
                          unsigned long count, unsigned long answer[ZHAQSUMIR_CH450_PLAY_ANSWER]);

/* The segments that a panel lights: none while it sleeps or DISP is 0, else the data bytes, bit 0 segment A to bit 6 segment G, bit 7 the
 * point.
 * panel: its numbers, left as they are.
 * answer: the refusal, 0, the bytes of DIG2 to DIG7.
 * Refused: BAD_PANEL (12), as for zhaqsumir_ch450_play; the bytes are then 0. */
void zhaqsumir_ch450_lit(const unsigned long panel[ZHAQSUMIR_CH450_PANEL], unsigned long answer[ZHAQSUMIR_CH450_LIT_ANSWER]);

#ifdef __cplusplus
}
#endif

#endif
