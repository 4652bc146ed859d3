"""Writes what crates/check_listing must print: python3 vectors/listing.py > crates/check_listing/stdout"""
import sys

from bank import LENGTHS, listing

GOOD = b"1,2,3,4,5,6\n"
WIDE = (b"-32768", b"32767", b"-1", b"12345", b"-9999")
FIRST = {12: (10,), 24: (100,) + 11 * (10,), 36: 13 * (10,), 72: 13 * (10,), 108: 42 * (100,), 216: 84 * (10,)}
DENSE = ((12, 5460), (24, 2729), (36, 1819), (72, 909), (108, 605), (216, 302))
LONG = ((12, 2000), (24, 1000), (36, 700), (72, 350), (108, 230), (216, 115))


def out(data):
    sys.stdout.buffer.write(data)


def show(data):
    out(listing(data))


def total(data):
    h = 0
    for b in data:
        h = (h * 31 + b) % 4294967291
    return h


def tell(data):
    text = listing(data)
    out(b"bytes,%d,%d,%d,%d\n" % (len(data), total(data), len(text), total(text)))


def sample(wide, k):
    if not wide:
        return b"%d" % (k % 10)
    return WIDE[k % 7] if k % 7 < len(WIDE) else b"%d" % (k // 7 % 10)


def hop(wide, h, count):
    return b",".join(sample(wide, 5 * h + 3 * i) for i in range(count)) + b"\n"


def hops(N, wide, count, first=b""):
    return b"%d\n" % N + first + b"".join(hop(wide, h, N // 2) for h in range(count))


def dense(N, count):
    """A listing of 65,536 bytes, all its samples of one digit but those of its first hop."""
    samples = FIRST[N] + (N // 2 - len(FIRST[N])) * (0,)
    data = hops(N, False, count, ",".join(map(str, samples)).encode() + b"\n")
    assert len(data) == 65536
    return data


def long(data):
    tell(data)
    show(data[:-1])
    show(data + b"\x00")


def hop_refused(line):
    show(b"12\n" + line)
    show(b"12\n" + GOOD + line)
    show(b"12\n" + GOOD + line + GOOD + b"01\n")


show(b"12\n0,0,0,0,0,0\n7,-8,32767,-32768,1,0\n5,5,5,5,5,5\n")
for line in (b"", b"\n", b"\n\n", b"12", b"12,12\n", b"12\r\n", b" 12\n", b"12 \n", b"012\n", b"+12\n", b"-\n", b"--12\n", b"-0\n", b"00\n", b"-012\n", b"1-2\n", b"123456\n", b"-123456\n", b"12,\n", b",12\n", b"12.\n", b"1e1\n", b"\xc2\xb912\n", b"012\n1,2,3,4,5\n", b"0108\n", b"216", b"216,\n"):
    show(line)
for line in (b"-12\n", b"0\n", b"1\n", b"11\n", b"48\n", b"99999\n", b"-99999\n", b"65548\n", b"11\nx", b"13\n\n\n", b"107\n", b"144\n", b"217\n", b"432\n", b"65752\n"):
    show(line)
for line in (b"\n", b"1,2,3,4,5\n", b"1,2,3,4,5,6,7\n", b"1,2,3,4,5,\n", b",2,3,4,5,6\n", b"1,2,,4,5,6\n", b"1,2,3,4,5,06\n", b"01,2,3,4,5,6\n", b"1,2,-0,4,5,6\n", b"1,2,--3,4,5,6\n", b"1,2,-,4,5,6\n", b"1,2,+3,4,5,6\n", b"1,2,3,4,5,32768\n", b"-32769,2,3,4,5,6\n", b"1,99999,3,4,5,6\n", b"1,-99999,3,4,5,6\n", b"1,2,3,4,5,100000\n", b"1,2,3,4,5,6\r\n", b"1, 2,3,4,5,6\n", b"1,2,3,4,5,6 \n", b"1;2;3;4;5;6\n", b'"1",2,3,4,5,6\n', b"1,2,3,4,5,6\x00\n", b"1,2,3,4,5,6", b"1,2,3,4,5,6,", b"x"):
    hop_refused(line)
for N in LENGTHS:
    for count in range(6):
        show(hops(N, True, count))
    for count in (N // 2 - 1, N // 2 + 1):
        show(hops(N, True, 1) + hop(True, 1, count))
for N, count in DENSE:
    long(dense(N, count))
for N, count in LONG:
    long(hops(N, True, count))
for first in (b"", b"12\n", b"11\n", b"012\n"):
    data = first + bytes(65537 - len(first))
    show(data[:-1])
    show(data)
for start in (0, 11, 48, 255):
    show(bytes((start + k) % 256 for k in range(256)))
