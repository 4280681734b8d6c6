"""Stored vectors of streams for the program vectors, by the reference.

    python3 pick_streams.py REFERENCE_FOLDER SEED COUNT FOLDER

makes random streams by the reference's make_vectors.py, and one with a loan and a repo at their limits, and writes COUNT of them to
FOLDER/streams.in: for each the bytes of book.dat (none where it is missing), the input, and all that claimrun writes, each behind its
length of four bytes. It takes first streams that show what is wanted (WANTED), always the one that shows most of what is left for its size,
then the smallest of those that show something that no smaller stream shows, then the smallest others. It prints what the streams cover, and
fails where something that is wanted is missing.
"""
import os
import struct
import subprocess
import sys
import tempfile

import step_files

folder, seed, count, out = sys.argv[1], sys.argv[2], int(sys.argv[3]), sys.argv[4]
ref, mk, cards, claimrun = step_files.reference_modules(folder, "reference", "makebook", "cards", "claimrun")
# Answers that no stream gets: 11 needs 4,294,967,295 transfers before it, claimrun lends no limits (12) and ones as pieces (13, 14),
# and 16 to 21 are those of calls that it does not make.
NEVER = {11, 12, 13, 14, *range(16, 22)}
NUMBERS = step_files.in_force(step_files.ANSWERS) - NEVER
# What one stream shows on days before the memo of 2023, and what it shows later.
OVER_THE_MEMO = {
    "fail claims": ({("before the memo", "fail claim")}, {("from the memo on", "fail claim")}),
    "loans": ({("before the memo", "15 with an increase")}, {("code", n) for n in (1, 4, 5)}),
    "empty tags": ({("before the memo", "empty tag with code 0"), ("before the memo", "empty tag with a repo code")},
                   {("from the memo on", "empty tag")})}
WANTED = step_files.wanted(NUMBERS) | {("over the memo", name) for name in OVER_THE_MEMO}
CANDIDATES = 6 * count
OTHERS = 8                      # places kept for the smallest others; they are books that are refused
LARGEST = 200000


def content(*names) -> bytes:
    path = os.path.join(*names)
    if not os.path.exists(path):
        return b""
    with open(path, "rb") as file:
        return file.read()


def at_the_limit() -> tuple:
    """A loan that goes to the limit, then a repo of the same two accounts; each is decreased and increased again with the other at the
    limit, and a close claims both."""
    records = [mk.transfer(4, 9, 0, 100_000_000, start) for start in (1, 7) for _ in range(90)]
    for start in (1, 7):
        records += [mk.transfer(4, 9, 0, 1, start), mk.transfer(9, 4, 0, 1, start + 2), mk.transfer(4, 9, 0, 1, start + 4)]
    book, data = mk.book_bytes(mk.weekdays(), mk.cases_tables(), 20230331), b"".join(records) + mk.close()
    return book, data, claimrun.run_bytes(book, data, cards.Both(step_files.CARDS))


def shown(book, data, expected) -> set:
    """What a stream shows."""
    direct = step_files.Direct(ref, cards)
    assert claimrun.run_bytes(book, data, direct) == expected
    over = {("over the memo", name) for name, (before, later) in OVER_THE_MEMO.items() if before & direct.facts and later & direct.facts}
    return step_files.record_facts(expected) | direct.facts | over


def candidates() -> list:
    """(place, stream, what it shows) for each stream that is not too large."""
    with tempfile.TemporaryDirectory() as made:
        subprocess.run([sys.executable, "-B", os.path.join(folder, "vectors", "make_vectors.py"), "--cards", str(step_files.CARDS), seed,
                        str(CANDIDATES), made], check=True, stdout=subprocess.DEVNULL)
        streams = [tuple(content(made, name, part) for part in ("book.dat", "input.dat", "expected.dat"))
                   for name in sorted(os.listdir(made))]
    return [(i, stream, shown(*stream)) for i, stream in enumerate(streams + [at_the_limit()]) if sum(map(len, stream)) <= LARGEST]


def size(entry) -> int:
    """How many bytes a stream has."""
    return sum(map(len, entry[1]))


def picked() -> list:
    """Entries of candidates, in the order of their places."""
    entries, seen, more, others = sorted(candidates(), key=lambda entry: (size(entry), entry[0])), set(), [], []
    first = step_files.covering(entries, lambda facts: facts & WANTED, size)
    for entry in entries:
        if entry not in first:
            (others if entry[2] <= seen else more).append(entry)
        seen |= entry[2]
    more = more[:max(0, count - len(first) - OTHERS)]
    return sorted((first + more + others)[:count], key=lambda entry: entry[0])


streams = picked()
covered = set().union(*(facts for _, _, facts in streams))
os.makedirs(out, exist_ok=True)
with open(os.path.join(out, "streams.in"), "wb") as file:
    for _, stream, _ in streams:
        file.write(b"".join(struct.pack("<I", len(part)) + part for part in stream))
print("%d streams, places %s" % (len(streams), " ".join(str(i) for i, _, _ in streams)))
for name in sorted({fact[0] for fact in covered}):
    print("%s:" % name, ", ".join("/".join(map(str, shown_by)) for shown_by in sorted(fact[1:] for fact in covered if fact[0] == name)))
missing = sorted(WANTED - covered, key=str)
if missing or len(streams) < count:
    sys.exit("missing: %s" % missing)
