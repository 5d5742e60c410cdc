"""A journal as a file: what of it counts, its requests, and digests."""
import functools
import json
import struct
from typing import NamedTuple

NAME = b"graphd j"
HEAD = 41
NUMBERS, TALLY = struct.Struct(">QQQQ"), struct.Struct(">QQ")
# the mark, and where the slot begins that counts then
SLOTS = {15: 9, 51: 25}
# of digests: the one of no bytes, and what a digest is multiplied by before a byte is added
NONE, STEP = 14_695_981_039_346_656_037, 1_099_511_628_211
BITS = 2**64 - 1
# bytes of a reply whose digest is kept in memory, since most replies are those of many requests
SHORT = 1_000
ENDS = {"commit", "rollback"}


class NoJournal(Exception):
    """The file isn't a journal, or is shorter than it says."""


class Record(NamedTuple):
    """A request that was answered: its tenant's name, empty in older files, its body, the length and the digest of its reply, and the byte
    of the file where the record begins."""

    tenant: bytes
    body: bytes
    length: int
    digest: int
    at: int


def tally(file):
    """The length of all records, in bytes, and their digest."""
    file.seek(0)
    head = file.read(HEAD)
    if len(head) < HEAD or head[:8] != NAME or head[8] not in SLOTS:
        raise NoJournal("it doesn't begin as a journal does")
    return TALLY.unpack_from(head, SLOTS[head[8]])


def records(file, tests=False):
    """The records that count, in their order. Their digests are tested where that is asked for, which takes a tenth of a second a MB."""
    left, wanted = tally(file)
    at, digest = HEAD, NONE
    while left > 0:
        numbers = file.read(NUMBERS.size)
        if len(numbers) < NUMBERS.size:
            raise NoJournal("it is shorter than it says")
        of_name, of_body, of_reply, of_digest = NUMBERS.unpack(numbers)
        size = of_name + of_body + 8
        left -= NUMBERS.size + size
        if left < 0:
            raise NoJournal("a record ends behind the records")
        text = file.read(size)
        if len(text) < size:
            raise NoJournal("it is shorter than it says")
        if tests:
            digest = digest_on(digest_on(digest, numbers), text[:-8])
            if text[-8:] != digest.to_bytes(8, "big"):
                raise NoJournal(f"the record at byte {at} has changed")
        yield Record(text[:of_name], text[of_name : of_name + of_body], of_reply, of_digest, at)
        at += NUMBERS.size + size
    if tests and digest != wanted:
        raise NoJournal("its digest has changed")


def digest_on(digest, text):
    """The digest of bytes that stand behind those with this one."""
    for byte in text:
        digest = digest * STEP + byte & BITS
    return digest


def digest_of(text):
    """The digest of a reply, as its record has it."""
    return _digest_of_short(text) if len(text) < SHORT else digest_on(NONE, text)


@functools.lru_cache(1024)
def _digest_of_short(text):
    return digest_on(NONE, text)


def open_transactions(found, tenant_of):
    """The names of the tenants whose transactions are open behind these records. `tenant_of` gives the name for a token, of a record
    without a name. (A tenant has one open at most, and a start may roll it back by another token than the one that began it.)"""
    tenants = set()
    for record in found:
        # (most requests are queries, which needn't be read)
        if b'"begin"' in record.body or any(f'"{it}"'.encode() in record.body for it in ENDS):
            request = json.loads(record.body)
            name = record.tenant.decode() or tenant_of(request["token"])
            if request["op"] == "begin":
                tenants.add(name)
            elif request["op"] in ENDS:
                tenants.discard(name)
    return tenants
