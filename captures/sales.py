"""The sale, which stands as a capture and as streams: its lines, what `replay` and `screen` must give, and what the last chip's DOUT
shows; all by hand, from document 01."""
from writer import digit, played, row, scan

DISP = 0x401            # system parameters: DISP
KEYB_DISP = 0x403       # system parameters: KEYB and DISP
BCD_TWO = 0x5A0         # display parameters: MODE 1, LIMIT 2
READ_KEY = 0x700
NO_OPERATION = 0x000
RESET = 0x201

POINT = 0x80
CONFIRM = (3, 4)        # DIG3 with SEG4: address 8 * 4 + 3 = 23H, code 63H
CLOCK = [5, 7]          # one clock with DIN high: a DCLK fall, a DCLK rise

# the amount 1049.50 on three chips, two digits on each: 10 49. 50; the lines after the first
LINES = (
    played(row(DISP, DISP, KEYB_DISP))
    + played(row(BCD_TWO, BCD_TWO, BCD_TWO))
    + played(row(digit(0, 0), digit(0, 9 + POINT), digit(0, 0)))
    + played(row(digit(1, 1), digit(1, 4), digit(1, 5)))
    + [scan(2, CONFIRM), scan(2, CONFIRM)]
    + played(row(NO_OPERATION, NO_OPERATION, READ_KEY))
    + played(7 * CLOCK)
    + [scan(2, CONFIRM), scan(2), scan(2)]
    + [scan(2, CONFIRM), scan(2, CONFIRM)]
)

WORDS = (
    ["10000401", "10010401", "10020403"]
    + ["100005A0", "100105A0", "100205A0"]
    + ["10000800", "10010889", "10020800"]
    + ["10000901", "10010904", "10020905"]
    + ["110263"]
    + ["10000000", "10010000", "10020700"]
    + ["110263"]
)

# dark; two zeros on each chip; 9 and the point in DIG0 of chip 1; the whole amount, and again at the read word. Scans light nothing
SCREENS = (
    ["30000000000000000000", "30010000000000000000", "30020000000000000000"]
    + ["30003F3F000000000000", "30013F3F000000000000", "30023F3F000000000000"]
    + ["30003F3F000000000000", "3001EF3F000000000000", "30023F3F000000000000"]
    + ["30003F06000000000000", "3001EF66000000000000", "30023F6D000000000000"]
    + ["30003F06000000000000", "3001EF66000000000000", "30023F6D000000000000"]
)

# chip 2's DOUT after each of the 384 samples. In the first row its latch, 0 from the first DCLK fall on, for in 36 clocks no bit comes
# through three chips; from the LOAD rise on KEYB is on, and it is high; at the second scan the interrupt pulls it low; the read word's
# LOAD rise shows K6 of 63H, and seven falls show K5 to K0, 1 0 0 0 1 1, and high
DOUT = [0] * 73 + [1] + [1] * 3 * 74 + [0] * 73 + [1] + [1, 1] + [0, 0] * 3 + [1, 1] * 2 + [1, 1]

# a row of resets, and what it gives: after it the next sale gives what the first gave
RESETS = played(row(RESET, RESET, RESET))
RESET_WORDS = ["10000201", "10010201", "10020201"]
RESET_SCREENS = ["30000000000000000000", "30010000000000000000", "30020000000000000000"]
