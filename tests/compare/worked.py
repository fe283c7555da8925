"""Examples whose answers were worked out by hand from paper 01. compare.examples makes records of them for the program ask."""

ENDING = "01020304" + "123456789012" + bytes(range(64)).hex()  # time, certificate, signature
CODE = "f03692581470369258147036"
TEXT = "23f07418529630741852963074185296307418"  # kind 2, set 3, a message number
STORY = b"The wave came over the wall; then the water went a long way out.".hex()

# The reader's answer, the text's answer, the packet in hex.
PACKETS = (
    (0, 27, "006e02" + CODE + CODE + "0201090098500200010170" + ENDING, "type 0, two frequencies"),
    (0, 27, "085b0003090807" + CODE + ENDING, "type 1, an address of three bytes"),
    (0, 27, "086701" + CODE + "03090807" + CODE + ENDING, "type 1 with a code"),
    (0, 27, "104e0001003c" + ENDING, "type 2, keep on for a minute"),
    (0, 27, "18520007e8021d173b3b" + ENDING, "type 3, 29 February 2024"),
    (0, 27, "204e00010203" + ENDING, "type 4, raw"),
    (0, 27, "284f0000000009" + ENDING, "type 5, raw"),
    (0, 27, "304b00" + ENDING, "type 6, raw and empty"),
    (0, 27, "384e00010107" + ENDING, "type 7, raw"),
    (0, 27, "404d000104" + ENDING, "type 8, raw"),
    (0, 27, "587201" + CODE + "00" * 27 + ENDING, "type 11, raw"),
    (0, 27, "604f005f074185" + ENDING, "type 12, reset"),
    (0, 27, "684c007f" + ENDING, "type 13, factory"),
    (0, 27, "705e0012f07418529630741852963074185296307418" + ENDING, "type 14, drill"),
    (0, 0, "78ab01" + CODE + TEXT + "40" + STORY + ENDING, "type 15, text"),
    (0, 27, "805000043b00ff80" + ENDING, "type 16, raw"),
    (0, 27, "805000053b00ff80" + ENDING, "type 16, whose first byte counts one too many"),
    (0, 27, "804b00" + ENDING, "type 16, empty"),
    (0, 27, "a84d0005ff" + ENDING, "type 21, hold"),
    (0, 27, "b06100" + "00" * 22 + ENDING, "type 22, raw"),
    (0, 27, "b84d0064ff" + ENDING, "type 23, raw"),
    (0, 27, "c04c0001" + ENDING, "type 24, raw"),
    (0, 0, "786b01" + CODE + TEXT + "00" + ENDING, "text of no byte"),
    (0, 0, "786c01" + CODE + TEXT + "0100" + ENDING, "text of one byte, a zero"),
    (0, 0, "786c01" + CODE + TEXT + "013b" + ENDING, "text of one byte, a semicolon"),
    (0, 0, "786c01" + CODE + TEXT + "0180" + ENDING, "text of one byte, 0x80"),
    (0, 0, "78f801" + CODE + TEXT + "8d" + "3b00ff80" * 35 + "3b" + ENDING, "text of 141 bytes: semicolons, zeros, 0xFF and 0x80"),
    (20, 20, "78f901" + CODE + TEXT + "8e" + "41" * 142 + ENDING, "text of 142 bytes"),
    (0, 27, "20f80e" + CODE * 14 + "0102030405" + ENDING, "14 codes leave 5 bytes"),
    (20, 20, "20ff0f" + CODE * 14 + CODE + ENDING, "15 codes"),
    (20, 20, ("304b00" + ENDING)[:-2], "76 bytes"),
    (20, 20, "304c00" + ENDING, "length field one too long"),
    (20, 20, "", "no byte"),
    (23, 23, "484b00" + ENDING, "type 9"),
    (23, 23, "504b00" + ENDING, "type 10"),
    (23, 23, "884b00" + ENDING, "type 17"),
    (23, 23, "c84b00" + ENDING, "type 25"),
    (23, 23, "f84b00" + ENDING, "type 31"),
    (26, 26, "78ab01" + CODE + TEXT + "41" + STORY + ENDING, "text longer than its content"),
    (26, 26, "0056000301090098500200010170" + ENDING, "three frequencies named, two there"),
    (26, 26, "a84e0005ffff" + ENDING, "hold of three bytes"),
    (24, 24, "78ab01" + CODE + "23e0741852963074185296307418529630741840" + STORY + ENDING, "reserved bit of a text"),
    (24, 24, "a8590170369258147036925814703605ff" + ENDING, "reserved bit of a code"),
    (24, 24, "a84d0005fe" + ENDING, "reserved bits of a hold"),
    (24, 24, "78ab01ff36925814703692581470362370741852963074185296307418529630741840" + STORY + ENDING, "reserved bit before a digit"),
    (25, 25, "78ab01" + CODE + "23fa741852963074185296307418529630741840" + STORY + ENDING, "digit ten of a text"),
    (25, 25, "00510001010900985b" + ENDING, "digit eleven of a frequency"),
    (25, 25, "a84d0005ff" + "01020304" + "1c3456789012" + "00" * 64, "digit twelve of the certificate"),
    (25, 25, "78ab01" + CODE + "43f0741852963074185296307418529630741f40" + STORY + ENDING, "digit before a field"),
    (27, 27, "78ab01" + CODE + "43f0741852963074185296307418529630741840" + STORY + ENDING, "text of kind 4"),
    (27, 27, "78ab01" + CODE + "03f0741852963074185296307418529630741840" + STORY + ENDING, "text of kind 0"),
    (27, 27, "78ab01" + CODE + "25f0741852963074185296307418529630741840" + STORY + ENDING, "character set 5"),
    (27, 27, "005100010009009850" + ENDING, "frequency of number 0"),
    (27, 27, "104e0002003c" + ENDING, "keep of 2"),
    (27, 27, "18520007e7021d173b3b" + ENDING, "29 February 2023"),
    (27, 27, "185200076c021d173b3b" + ENDING, "29 February 1900"),
    (0, 27, "18520007d0021d173b3b" + ENDING, "29 February 2000"),
    (0, 27, "1852000000021d173b3b" + ENDING, "29 February of the year 0"),
    (27, 27, "18520007e8021e173b3b" + ENDING, "30 February 2024"),
    (27, 27, "18520007e8041f173b3b" + ENDING, "31 April"),
    (27, 27, "18520007e80d01173b3b" + ENDING, "month 13"),
    (27, 27, "18520007e80001173b3b" + ENDING, "month 0"),
    (27, 27, "18520007e80101183b3b" + ENDING, "hour 24"),
    (27, 27, "18520007e80101173b3c" + ENDING, "second 60"),
    (27, 27, "604f007f074185" + ENDING, "reset that changes nothing and everything"),
)

# The check value that catalogues of CRCs print for the digits, and what crcmod (Debian's python3-crcmod, 'crc-ccitt-false') gives of others.
CHECKS = (
    (b"", 0xFFFF, "check of no byte"),
    (b"123456789", 0x29B1, "check of the digits 1 to 9"),
    (b"\x00", 0xE1F0, "check of one byte 00"),
    (b"\xff", 0xFF00, "check of one byte ff"),
    (b"A", 0xB915, "check of the letter A"),
    (b"abc", 0x514A, "check of the letters abc"),
    (b"\xff\xff", 0x0000, "check of two bytes ff"),
    (bytes(4), 0x84C0, "check of four bytes 00"),
    (bytes(range(256)), 0x3FBD, "check of the bytes 00 to ff"),
    (b"\xff" * 250, 0x106E, "check of 250 bytes ff"),
    (b"\x5a" * 250, 0x5BC8, "check of 250 bytes 5a"),
    (b"The wave came over the wall; then the water went a long way out.", 0x08F7, "check of a story"),
)

# The story that goes the whole way: 123 bytes of text with one code are a packet of 232 bytes and 59 frames.
SEMICOLONS = (b"The wave came over the wall; then the water went a long way out; then; it; came; again;; and we ran up the hill; all of us.")
CUTS = (0, 201, 202, 500, 767)

# 53 bits of noise; frames 1 and 2; frame 3 with a bit of its block B lost; 4 and 5; 6 with a bit of its block C turned; 7; 8 with two bits
# of its block A turned; 9; 70 bits of noise; the first 61 bits of frame 2, and a zero that fills the byte.
STREAM = """
546CC213B0ECF96F44760CDF9AD046500DD603D8C42C48593603917A9753EC0BAABF844A48191931
E0E399563DBA15D65F052E2B72989045501247CFB9FF522B6C2460D1D747D8798136B7675DF6D6CE
914E2F6B8C64F8194CF58FE2E972F638F23B3330C3842DB35BC1D658330FBA1CF4D3338F7498AE32
26E9FCA4CA7DC78E91C8F00D06216242C9B01C8A"""
STREAM_FRAMES = ("2DE8066FA08C6EB0 18852C9B22F59F60 A15DC14B72981540 7CFBD48A24605D1F 9813D9D7C6CE38BD C64F533DE2E9D8E3 B533E10B5BC160CC"
                 " A1CFCCE398AE9BA7").split()
# Frames 6 and 8 come right behind a frame: one block of each is mended.
STREAM_MENDED = "0000000001000100"

# The frame of eight zero bytes on air.
ZEROS = "00003F000019800005A00001B4"

# A receiver's record: how many bits are pending, and 128 bits of which so many, the lowest, count; the answer and the frames of the frame above.
ONES = (1 << 128) - 1
RECEIVERS = (
    (104, 0, 28, 0, "104 bits pending"),
    (255, ONES, 28, 0, "255 bits pending"),
    (0, ONES, 0, 1, "no bit pending, and others that mean nothing"),
    (103, ONES - (1 << 103) + 1, 0, 1, "103 zero bits pending, and others that mean nothing"),
)

# 26 bits that pass as a block A, right behind them a true frame, and six bits: paper 01's receiver locked on the 26 and lost the frame.
CHANCE = "1234 1A80 48C2 C456 7ED6 26AD FBCD EFF6 AD"
BEHIND = "0123456789ABCDEF"

# A frame with 1234 in its block A, 48D06A, and zeros in the others; then the last bits of its block A turned by 10001, within five neighbouring bits; by
# 101111, within six, so that another block A is nearer, 48C845 with 1232; and by 110011, so that none is within five.
ONE_DAMAGED = "1234 1A80 0019 8000 05A0 0001 B4"
BURSTS = (
    (0b10001, "1234000000000000", "a burst of five bits"),
    (0b101111, "1232000000000000", "a burst of six bits, mended wrongly"),
    (0b110011, None, "a burst of six bits that is not mended"),
)
# The frame of zeros with all five bits turned at the head of block A, at the end of B, in the middle of C, and from the information into the check of D.
ALL_DAMAGED = "F800 3F00 0018 7003 E5A0 001E B4"

# A place of the collector: held, level, version, total, a number marked; the answer of an offer of seven bytes.
PLACES = (
    ((1, 7, 0, 1, 255), 28, "held at level 7"),
    ((1, 0, 0, 1, 255), 28, "held at level 0"),
    ((1, 6, 32, 1, 255), 28, "held at version 32"),
    ((1, 6, 31, 64, 255), 28, "held with a total of 64"),
    ((1, 6, 31, 0, 255), 28, "held with a total of 0"),
    ((1, 6, 31, 5, 5), 28, "number 5 of 5 marked"),
    ((1, 6, 31, 5, 4), 26, "number 4 of 5 marked"),
    ((1, 6, 31, 63, 62), 26, "number 62 of 63 marked"),
    ((1, 6, 31, 1, 255), 26, "held, and no number marked"),
    ((0, 7, 32, 64, 62), 26, "free, whatever else it has"),
    ((1, 6, 31, 63, 63), 28, "held, the top bit of its marks set"),
    ((0, 6, 31, 63, 63), 28, "free, the top bit of its marks set"),
)

# What the collector is asked, one call behind the other: the call, its arguments, its answer.
COLLECTOR = (
    ("offer", "A30CB000010203", 26, "seven bytes"),
    ("offer", "A30CB01001020304", 12, "a fixed bit wrong"),
    ("offer", "E30CB00001020304", 13, "level 7"),
    ("offer", "030CB00001020304", 13, "level 0"),
    ("offer", "A300B00001020304", 14, "total 0"),
    ("offer", "A30CB00301020304", 14, "number 3 of 3"),
    ("offer", "A3FFB00F01020304", 14, "number 63 of 63"),
    ("offer", "A30CB002D124FFFF", 0, "number 2 of 3"),
    ("offer", "A30CB002D124FFFF", 2, "the same frame"),
    ("offer", "A30CB002D124FFFE", 3, "the same number, other bytes: begun again"),
    ("offer", "A310B002D124FFFE", 3, "another total, the same bytes: begun again"),
    ("offer", "A310B002D124FFFE", 2, "the same frame, of that total"),
    ("offer", "A30CB002D124FFFF", 3, "the first total again"),
    ("offer", "A30CB000A8060102", 0, "number 0 of 3"),
    ("copy", (5, 3, 10), 18, "copy with a number missing"),
    ("offer", "A30CB000A8060102", 2, "number 0 again"),
    ("offer", "A30CB00103040506", 1, "number 1 of 3, the last missing"),
    ("offer", "A30CB002D124FFFE", 15, "a whole pair, other bytes"),
    ("offer", "A310B002D124FFFF", 15, "a whole pair, another total"),
    ("offer", "A30CB002D124FFFF", 2, "a whole pair, its own frame"),
    ("copy", (5, 3, 10), 0, "copy of eight bytes to ten"),
    ("copy", (5, 3, 7), 10, "copy to seven bytes"),
    ("copy", (5, 4, 10), 18, "copy of a pair not held"),
    ("copy", (200, 3, 10), 18, "copy of a level that cannot be"),
    ("offer", "2004B000A80089D9", 17, "one frame, its check wrong"),
    ("copy", (1, 0, 10), 18, "copy of a spoiled pair"),
    ("offer", "2004B000A80089DA", 17, "other bytes for it, spoiled at once"),
    ("offer", "2004B000A80089D8", 1, "other bytes for it, whole at once"),
    ("offer", "2004B000A80089D9", 15, "now it is whole"),
    ("offer", "5FFFB00E01020304", 0, "number 62 of 63"),
    ("offer", "C108B000A801079B", 0, "the fourth pair"),
    ("offer", "2204B000A80089D8", 16, "a fifth pair"),
    ("offer", "C108B00177FFFFFE", 17, "the fourth pair, its fill wrong"),
    ("offer", "C108B00177FFFFFF", 3, "the spoiled pair begun again, without its first number"),
    ("offer", "C108B000A801079B", 1, "which comes"),
    ("release", (5, 3), 0, "release"),
    ("release", (5, 3), 18, "release again"),
    ("offer", "2204B000A80089D8", 1, "the fifth pair in the place made free"),
    ("offer", "A30CB002D124FFFF", 16, "the pair released, with no place left"),
)

# A girl's sentence with its semicolon, as a story of one part: kind 2, no code, message number 7 in all places but the last four, 0041. Its body is
# the head 1/1 and a space, and the sentence: 68 bytes, so the packet has 97 and 68.
GIRL = b"The wave came over the wall; then the water went a long way out."
GIRL_NUMBER = [7] * 31 + [0, 0, 4, 1]
GIRL_PACKET = "78a300" + "20f" + "7" * 31 + "0041" + "44" + b"1/1 ".hex() + GIRL.hex() + ENDING

# The same sentence five times, 320 bytes: two parts of 149 and one of 22. Numbers 0041 to 0043.
LONG = GIRL * 5
LONG_SIZES = (250, 250, 123)

# A state, a symbol's numbers, what is printed, what it is. 1.0 is the pattern 3ff0.., 5.0 4014.., 524280.0 411fffe0.., -524280.0 c11fffe0..
FIVE = [5.0] + [0.0] * 31  # the pair (5, 0)
LOWEST = [-32768.0] * 16 + [32767.0] * 16  # the pair (-524280, -524280)
NO_NUMBER = float("nan")
SYMBOLS = (
    ((0.0, 0.0), FIVE, "0 undecided 0000000000000000 4014000000000000 0000000000000000", "a first symbol"),
    ((1.0, 9.0), FIVE, "0 zero 4014000000000000 4014000000000000 0000000000000000", "a bit 0"),
    ((-1.0, 9.0), FIVE, "0 one c014000000000000 4014000000000000 0000000000000000", "a bit 1"),
    ((0.0, 9.0), FIVE, "0 undecided 0000000000000000 4014000000000000 0000000000000000", "a right angle"),
    ((524280.0, -524280.0), LOWEST, "0 undecided 0000000000000000 c11fffe000000000 c11fffe000000000", "the largest pairs at a right angle"),
    ((-1.0, -1.0), LOWEST, "0 zero 412fffe000000000 c11fffe000000000 c11fffe000000000", "the lowest samples, then the highest"),
    ((-0.0, 1.0), [-0.0] * 32, "0 undecided 0000000000000000 0000000000000000 0000000000000000", "minus zeros"),
    ((524281.0, 0.0), FIVE, "28 undecided 0000000000000000 411fffe400000000 0000000000000000", "a state one too large"),
    ((0.0, -524281.0), FIVE, "28 undecided 0000000000000000 0000000000000000 c11fffe400000000", "one too small"),
    ((0.5, 0.0), [NO_NUMBER] * 31, "28 undecided 0000000000000000 3fe0000000000000 0000000000000000", "half a state, and two cases more"),
    ((NO_NUMBER, 0.0), FIVE, "28 undecided 0000000000000000 nan 0000000000000000", "a state that is no number"),
    ((1.0, 1.0), [NO_NUMBER] * 31, "37 undecided 0000000000000000 3ff0000000000000 3ff0000000000000", "31 numbers, none of them one"),
    ((1.0, 1.0), [0.0] * 33, "37 undecided 0000000000000000 3ff0000000000000 3ff0000000000000", "33 numbers"),
    ((1.0, 1.0), [], "37 undecided 0000000000000000 3ff0000000000000 3ff0000000000000", "no number"),
    *(((1.0, 1.0), [x] + [0.0] * 31, "38 undecided 0000000000000000 3ff0000000000000 3ff0000000000000", "a sample of %s" % x)
      for x in (NO_NUMBER, float("inf"), -float("inf"), 0.5, 2.0**53, 32768.0, -32769.0)),
    *(((1.0, 1.0), [0.0] * 31 + [x], "38 undecided 0000000000000000 3ff0000000000000 3ff0000000000000", "a last sample of %s" % x)
      for x in (32767.5, -0.25)),
)

# A record of level 5, version 3 and a packet of three bytes: type 15, length field 1. Its line. The summary of it alone: entry 15 says one, the last of
# number 0, and the other entries say none; behind 4,095 records its last number is 4095.
HEARD_PACKET = "7801af"
HEARD = "05030003" + HEARD_PACKET + "ff" * 247 + "0000"
HEARD_LINE = b"5 3 3 7801AF\n"
NO_ENTRY = "00000000ffffffff"
HEARD_SUMMARY = NO_ENTRY * 15 + "0000000100000000" + NO_ENTRY * 16
ADDED_LAST = "00" * 120 + "0000000100000fff" + "00" * 128

# Commands of the sister band, by tables 8 to 11 of GY/T 403-2024: the reader's answer, what it reads, the command in hex. The year 2014 is
# 0x07DE and 98.0 MHz are 98,000 kHz, 0x00017ED0; a code is four 1 bits and 23 digits.
BAND_CODE = "f12345678901234567890123"
COMMANDS = (
    (0, "clock 2014 11 10 12 13 14", "01000707de0b0a0c0d0e", "a clock"),
    (0, "clock 2024 2 29 23 59 59", "01000707e8021d173b3b", "29 February 2024"),
    (0, "resource 2", "02000f020a0b" + BAND_CODE, "a resource code, address of two bytes"),
    (0, "resource 0", "02000d00" + BAND_CODE, "a resource code, no address"),
    (0, "lock 98000 1", "03001100017ed001" + BAND_CODE, "98.0 MHz for one receiver"),
    (0, "lock 98000 0", "03000500017ed000", "98.0 MHz for none"),
    (26, "unknown", "", "no byte"),
    (26, "unknown", "0400", "two bytes, and an unknown tag"),
    (39, "unknown", "040000", "tag 4"),
    (39, "unknown", "000007" + "00" * 7, "tag 0"),
    (26, "unknown", "01000607de0b0a0c0d", "a clock of six bytes"),
    (26, "unknown", "01000707de0b0a0c0d", "a clock cut short"),
    (26, "unknown", "01010707de0b0a0c0d0e", "the high byte of a length"),
    (26, "unknown", "02000e02" + "0a" + BAND_CODE, "an address longer than its content"),
    (26, "unknown", "03001100017ed002" + BAND_CODE, "two codes named, one there"),
    (24, "unknown", "03001100017ed001" + "e12345678901234567890123", "a reserved bit"),
    (24, "unknown", "03001100017ed001" + "e1234567890123456789012a", "a reserved bit and a digit ten"),
    (25, "unknown", "03001100017ed001" + "f1234567890123456789012a", "a digit ten"),
    (25, "unknown", "02000d00" + "fb2345678901234567890123", "a digit eleven"),
    (27, "unknown", "01000707e7021d173b3b", "29 February 2023"),
    (27, "unknown", "01000707de0d0a0c0d0e", "month 13"),
)
