#!/usr/bin/env python3
"""Writes the jobs of this folder: worked.job, and in jobs/ a small job NAME.job with its line NAME.out for each answer;
and the same jobs, each with its length before it, as what crates/job_vectors is run on and must print.

Change what is below and run it again. Columns are counted from 1, as in docs/COLUMNS.md.
"""
import os
import struct

NAME = b"TIF100123202606150001_20000B_130001"
RECEIVED = b"20260616020000"
CARD = b"0909081004140713"
PAN = b"9578000100000000017"
UNKNOWN_PAN = b"9578000100000000025"
PLATE = b"AB12345   NO"
LEASE = b"LEASE-000017"
PERIODS = [(b"20260101000000", b"20260301000000"), (b"20260301000000", b"99999999999999")]


def row(width, fields):
    """A row of zeros with the fields put in, each by its first column."""
    text = bytearray(b"0" * width)
    for first, field in fields.items():
        text[first - 1:first - 1 + len(field)] = field
    text[width - 1:] = b"\n"
    return bytes(text)


def passage(kind, amount, pan=PAN, moment=b"20260614081530"):
    """A line of a TIF; four fifths of the amount are the fee without VAT."""
    fee = amount * 4 // 5
    return row(810, {
        1: b"1", 2: kind, 4: pan, 61: moment, 77: NAME[3:9], 84: b"00420002",
        115: b"%011d" % fee, 126: b"%011d" % (amount - fee), 137: b"%011d" % amount, 148: b"NOK",
        240: PLATE, 252: PLATE, 293: b"02N0622",
    })


def tif(side, amounts, lines):
    """The file of these lines: header, lines, and a footer with the sum of the amounts."""
    header = row(162, {
        2: NAME[3:9], 8: NAME[22:28], 14: NAME[:21], 35: b"TIF000000000000      ", 56: b"NOK",
        59: b"%015d" % len(lines), 74: side, 77: b"%015d" % len(lines), 92: b"20260615230000", 106: b"130001",
    })
    return header + b"".join(lines) + row(107, {1: b"2", 2: b"%015d" % sum(amounts)})


def book():
    """One agreement with its periods."""
    periods = b"".join(PLATE + start + end for start, end in PERIODS)
    return struct.pack(">H", 1) + PAN + struct.pack(">I", 25) + LEASE + struct.pack(">H", len(PERIODS)) + periods


def job(**changed):
    """A job: eight lengths, then the bodies back to back. A body that is not named is the worked example's."""
    bodies = {
        "name": NAME, "received": RECEIVED, "card": CARD, "names": b"", "book": book(),
        "debits": b"", "marks": b"", "tif": worked_tif(), **changed,
    }
    return b"".join(struct.pack(">I", len(body)) for body in bodies.values()) + b"".join(bodies.values())


def worked_tif(amounts=(5000, 12550, 300)):
    """Three passages; the PAN of the second is in no agreement, the third is covered by its plate."""
    first, second, third = amounts
    return tif(b"DEB", amounts, [
        passage(b"C1", first),
        passage(b"C1", second, pan=UNKNOWN_PAN, moment=b"20260614114500"),
        passage(b"C8", third, pan=b" " * 19, moment=b"20260614173011"),
    ])


def changed(text, first, field):
    """The text with a field put in by its first column."""
    return text[:first - 1] + field + text[first - 1 + len(field):]


def small_jobs():
    worked = job()
    covered = tif(b"DEB", [5000], [passage(b"C1", 5000)])
    credits = tif(b"CRE", [5000] * 3, [passage(b"R2", 5000)] * 3)
    debits = passage(b"C1", 5000) * 2
    left = 65536 - len(worked)
    wrapping = bytes.fromhex("80000000" * 2 + "00000000" * 6)
    return {
        "j_empty": (b"", "J"),
        "j_short": (bytes(31), "J"),
        "j_one_byte_missing": (worked[:-1], "J"),
        "j_one_byte_more": (worked + b"0", "J"),
        "j_lengths_wrap": (wrapping, "J"),
        "j_too_long": (job(tif=worked_tif() + b"0" * (left + 1)), "J"),
        "e1_no_bodies": (bytes(32), "E1"),
        "e1_name": (job(name=changed(NAME, 18, b"0000")), "E1"),
        "e2_moment": (job(received=b"20230229000000"), "E2"),
        "e3_card": (job(card=CARD[:-1]), "E3"),
        "e4_names": (job(names=b"\0"), "E4"),
        "e5_book": (job(book=b""), "E5"),
        "e6_debits": (job(marks=b"\0"), "E6"),
        "00_no_lines": (job(tif=tif(b"DEB", [], [])), "00 DEB 0 0 0 0 0 0"),
        "00_debit": (job(tif=covered), "00 DEB 1 1 0 5000 5000 0"),
        "00_credits": (job(debits=debits, marks=b"\0\0", tif=tif(b"CRE", [5000] * 2, [passage(b"R2", 5000)] * 2)), "00 CRE 2 2 0 10000 10000 0"),
        "01_credits": (job(debits=debits, marks=b"\1\0", tif=credits), "01 CRE 3 1 2 15000 5000 10000"),
        "02_received": (job(names=NAME), "02 DEB 0 0 0 0 0 0"),
        "03_counts": (job(tif=changed(worked_tif(), 59, b"%015d" % 4)), "03 DEB 0 0 0 0 0 0"),
        "04_total": (job(tif=changed(worked_tif(), 162 + 3 * 810 + 2, b"%015d" % 17851)), "04 DEB 0 0 0 0 0 0"),
        "05_form": (job(tif=worked_tif()[:-1]), "05 DEB 0 0 0 0 0 0"),
        "05_no_side": (job(tif=b""), "05 000 0 0 0 0 0 0"),
        "05_longest": (job(tif=worked_tif() + b"0" * left), "05 DEB 0 0 0 0 0 0"),
    }


def write(place, text):
    """Writes a file of the repository."""
    root = os.path.dirname(os.path.dirname(os.path.abspath(__file__)))
    with open(os.path.join(root, place), "wb") as file:
        file.write(text)


def main():
    jobs = {"worked": (job(), "01 DEB 3 2 1 17850 5300 12550"), **small_jobs()}
    write("examples/worked.job", job())
    for name, (text, line) in small_jobs().items():
        write("examples/jobs/" + name + ".job", text)
        write("examples/jobs/" + name + ".out", line.encode() + b"\n")
    framed = b"".join(b"J" + struct.pack(">I", len(text)) + text for text, _ in jobs.values())
    write("crates/job_vectors/stdin", framed)
    write("crates/job_vectors/stdout", b"".join(line.encode() + b"\n" for _, line in jobs.values()))


if __name__ == "__main__":
    main()
