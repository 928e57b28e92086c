"""How bytes of journals read, worked out by hand from docs/JOURNAL.md: the rows of
test_journals.py. Bytes are written in hex digits."""
from checking import S1

LOCK_INFO = b'{"ID":"B"}'

# How the prefixes of each text read, and the text with the lowest bit of a byte flipped: runs of
# lengths, or of places, each given by its last one. A reading has the format, the position, the
# number of rows, the number of entries, and the end.
PREFIXES = [
    "4: 1 0 0 0 torn 0, 5: 1 0 0 0 whole, 70: 1 0 0 0 torn 5, 71: 1 0 0 1 whole, 103: 1 0 0 1 torn 71, 104: 1 0 0 2 whole",
    "4: 1 0 0 0 torn 0, 30: 2 0 0 0 torn 5, 31: 2 0 0 0 whole, 96: 2 0 0 0 torn 31, 97: 2 0 0 1 whole, 129: 2 0 0 1 torn 97, "
    "130: 2 0 0 2 whole",
    "4: 1 0 0 0 torn 0, 91: 2 0 0 0 torn 5, 92: 2 2 1 0 whole",
    "4: 1 0 0 0 torn 0, 101: 2 0 0 0 torn 5, 102: 2 2 2 0 whole, 167: 2 2 2 0 torn 102, 168: 2 2 2 1 whole, 191: 2 2 2 1 torn 168, "
    "192: 2 2 2 2 whole",
]
FLIPPED = [
    "4: 1 0 0 0 damaged 0, 7: 1 0 0 0 damaged 5, 10: 1 0 0 0 torn 5, 70: 1 0 0 0 damaged 5, 75: 1 0 0 1 damaged 71, "
    "77: 1 0 0 1 torn 71, 103: 1 0 0 1 damaged 71",
    "4: 1 0 0 0 damaged 0, 30: 2 0 0 0 damaged 5, 33: 2 0 0 0 damaged 31, 36: 2 0 0 0 torn 31, 96: 2 0 0 0 damaged 31, "
    "101: 2 0 0 1 damaged 97, 103: 2 0 0 1 torn 97, 129: 2 0 0 1 damaged 97",
    "4: 1 0 0 0 damaged 0, 18: 2 0 0 0 damaged 5, 20: 2 0 0 0 torn 5, 31: 2 0 0 0 damaged 5, 33: 2 0 0 0 torn 5, 91: 2 0 0 0 damaged 5",
    "4: 1 0 0 0 damaged 0, 18: 2 0 0 0 damaged 5, 19: 2 0 0 0 torn 5, 30: 2 0 0 0 damaged 5, 33: 2 0 0 0 torn 5, 37: 2 0 0 0 damaged 5, "
    "40: 2 0 0 0 torn 5, 41: 2 0 0 0 damaged 5, 43: 2 0 0 0 torn 5, 101: 2 0 0 0 damaged 5, 104: 2 2 2 0 damaged 102, "
    "107: 2 2 2 0 torn 102, 167: 2 2 2 0 damaged 102, 191: 2 2 2 1 damaged 168",
]

# Bytes after the header of format 2. The first ones stop inside a valid field; in the others a
# field is out of its range, or a complete base has an invalid content: descending names, a repeated
# name, a holder, a state, and a position past its limit. The MD5s were computed separately.
TORN_BASES = """

40000000000000
4000000000000000
4000000000000000 04
4000000000000000 0400
0000000000000000 0001 40
0000000000000000 0001 03 6162
0000000000000000 0001 01 61 000100
0000000000000000 0001 01 61 00010000
0000000000000000 0001 01 61 00000000 01000000
0000000000000000 0001 01 61 00000002 7b7d 00000000
0000000000000000 0001 01 61 00000000 00000002 7b7d 0000
0000000000000002 0002 01 62 00000000 00000000 01 61 00000000 00000000"""
DAMAGED_BASES = """
4000000000000001
8000000000000000
0000000000000000 0401
0000000000000000 0001 00
0000000000000000 0001 41
0000000000000000 0001 03 612f
0000000000000000 0001 40 2f
0000000000000000 0001 01 61 00010001
0000000000000000 0001 01 61 00000000 01000001
0000000000000000 0002 01 61 00000000 00000000 02 6120
0000000000000002 0002 01 62 00000000 00000000 01 61 00000000 00000000 490d8815dfe0e6aec7636fb035351fe7
0000000000000002 0002 01 61 00000000 00000000 01 61 00000000 00000000 38f9af6fbf48d910ac96ba3b1018983b
0000000000000001 0001 01 61 00000002 7b7d 00000000 f3ed5e5356168cbbb68b2b43fef7eaf4
0000000000000001 0001 01 61 00000001 20 00000000 2620dd05678a48ab991c155da6694071
0000000000000001 0001 01 61 00000000 00000002 7b7d 43857452f17f9a3f8b0adfb28cbe4892
4000000000000001 0000 4d743997146ce942b5e56861b525b349"""
WHOLE_BASES = """
0000000000000003 0001 01 63 00000000 00000000 2ed3ed7408f6a25483850611ab778044
4000000000000000 0000 3e3c9e5df6115e32ce8b7174b0440bb5"""
# Entries and their records, and bases, as docs/JOURNAL.md has them: what each reads as, and its
# bytes, in which S1 and B mean the bytes of these texts.
RECORDS = """
lock a B: 01 01 61 0000000a B 51e58c87956661f2abce797e7e32df48
unlock a -: 02 01 61 00000000 3656b9beb184d0f7fe8fdd5464f96972
unlock a 42: 02 01 61 00000001 42 97f3aa44e5e07d48fabb4ede0adb18f1
push a - S1: 03 01 61 0000002b 0000 S1 0b724c5a93643cb175cc63518b327052
push a 41 S1: 03 01 61 0000002c 0001 41 S1 d5c1df6dd5d4223c61dd0a2af1244df7
push b - S2: 03 01 62 0000002b 0000 S2 fc2b0f1dacd37ac45c14a899ad40c2e4
delete a -: 04 01 61 00000000 f79d446d1720acbc3b66c5987cd21b9a"""
BASES = """
base 0: 0000000000000000 0000 a63c90cc3684ad8b0a2176a6a8fe9005
base 3 row c - -: 0000000000000003 0001 01 63 00000000 00000000 2ed3ed7408f6a25483850611ab778044
base 2 row a B - row b - S1: 0000000000000002 0002 01 61 0000000a B 00000000 01 62 00000000 00000029 S1 0ae5c3e2dc3f8858a68f384f57e987cd"""
# Bytes after the empty base, likewise. The last ones have a right MD5: identifiers that aren't
# UTF-8, in an unlock and in a push; a push of one byte, one whose identifier passes its end, and
# one without a state; lock information twice, and a state.
EMPTY = "00000000000000000000 a63c90cc3684ad8b0a2176a6a8fe9005 "
TORN_RECORDS = """
01
04
01 40
01 03 6162
01 01 61 00010000
02 01 61 00000100
03 01 61 01000102
04 01 61 00000100
01 01 61 00000002 7b7d
03 01 61 00000002 ffff 00"""
DAMAGED_RECORDS = """
00
05
ff
01 00
01 41
01 03 612f
01 01 61 00010001
02 01 61 00000101
03 01 61 01000103
04 01 61 00000101
02 01 61 00000001 ff 140f009fddf8b5cb708c59a7cf0489e1
03 01 61 0000002c 0001 ff """ + S1.hex() + """ 4931ce3bd397bb88a26922c4729ab55b
03 01 61 00000001 00 e4c909c5d969bcf54dec55eedc6a7971
03 01 61 00000005 0005616263 896f0185bd71ecb97b1142b9382b5496
03 01 61 00000003 000141 21e49a973d2769727fa2fb1a1b4c2ebb
01 01 61 00000002 7b7d d62b7880ea8954d8b9d8c8ab6df46503
01 01 61 00000000 c81bdc197452b935ef70a4343403383b
03 01 61 00000004 00007b7d 33ce4fe46b230e56114e83228ce6d078"""
# Records of the longest contents, and of some that are one byte longer: the text before a filling,
# the filling, the text after it, and whether they are read.
LONG_RECORDS = [
    ("02 01 61 00000100", b"x" * 256, "3527c3893f3ce67690004aade2875168", True),
    ("02 01 61 00000101", b"x" * 257, "8210012769dcae8e062d62d563a16159", False),
    ("04 01 61 00000100", b"x" * 256, "2e5c584bdf9aa9e9bebad7a1b70d58f2", True),
    ("03 01 61 0000012b 0100", b"x" * 256, S1.hex() + "d891f9bd19d421f2a0710b116b98926a", True),
    ("03 01 61 0000012c 0101", b"x" * 257, S1.hex() + "7f8bdfcab8d9fb8e9c8607cc54eb5a55", False),
    ("01 01 61 00010000" + LOCK_INFO.hex(), b" " * 65_526, "4625421e6e7257a06c5418bd158f850a", True),
    ("03 01 61 01000002 0000" + S1.hex(), b" " * 16_777_175, "fd532d84cd6a8120410cf9421a346f6c", True),
    ("03 01 61 01000003 0000" + S1.hex(), b" " * 16_777_176, "84b50a19c59531615a8e8932b294fcd6", False),
]
