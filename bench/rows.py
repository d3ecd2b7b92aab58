"""The sheets, tables and dumps that bench/count counts, each chosen so that it is accepted unless its name says not."""

from pathlib import Path
from typing import NamedTuple

MAILBOX_WRITE, MAILBOX_READ, OUTPUTS, INPUTS = 1, 2, 3, 4
CONTROL = {MAILBOX_WRITE: 0x26, MAILBOX_READ: 0x22, OUTPUTS: 0x64, INPUTS: 0x20}
COE_FLAGS, NO_MAILBOX = 3, 0
SAMPLE = bytes.fromhex(
    "0038 0103 0080 0080 050203 1000260101 1080220102 1100640103 1180200104 1183200104 0102"
    "00031a00020c05 00041a01020801 000216000110"
)


class Row(NamedTuple):
    name: str
    sheet: bytes
    table: list = []
    pairs: list | None = None  # (FMMU number, sync manager number); None where entries are those of the own numbers

    def length(self):
        """L, the bytes that follow it."""
        return len(self.sheet) - 2

    def pdos(self):
        return self.sheet[10]

    def by_own_numbers(self):
        return self._replace(pairs=None)

    def pair_bytes(self):
        return b"".join(map(bytes, self.pairs))

    def input(self, times, fmmus=b""):
        """What a program reads; one that is built for used areas has the FMMU area before the sheet, one for pairs has those there."""
        records = b"".join(index.to_bytes(2, "big") + bytes([multiplier]) for index, multiplier in self.table)
        pairs = b"" if self.pairs is None else len(self.pairs).to_bytes(2, "big") + self.pair_bytes()
        return times.to_bytes(4, "big") + len(self.table).to_bytes(2, "big") + records + fmmus + pairs + self.sheet


def sheet(flags, managers, usages, pdos):
    body = bytes([1, flags, 0, 128, 0, 128, len(managers), len(usages), len(pdos)])
    for k, usage in enumerate(managers):
        body += (0x1000 + 0x100 * k).to_bytes(2, "big") + bytes([CONTROL[usage], 1, usage])
    body += bytes(usages)
    for kind, manager, index, lengths in pdos:
        body += bytes([kind, manager]) + index.to_bytes(2, "big") + bytes([len(lengths)]) + bytes(lengths)
    return len(body).to_bytes(2, "big") + body


def managers(count):
    """Two mailboxes, then outputs and inputs by turns."""
    return ([MAILBOX_WRITE, MAILBOX_READ] + [OUTPUTS, INPUTS] * 7)[:count]


def coe_pdos(count, mappings, manager_count=4, shared=False):
    """CoE PDOs on the data sync managers by turns, with so many mapping bytes in all, as evenly as can be."""
    each, more = divmod(mappings, count) if count else (0, 0)
    pdos = []
    for k in range(count):
        manager = 2 + k % (manager_count - 2)
        index = 0x1A00 if shared else 0x1A00 + k
        pdos.append((0, manager, index, [1 + i % 6 for i in range(each + (k < more))]))
    return pdos


def eeprom_pdos(count, manager_count=4):
    data = range(2, manager_count)
    return [(2 - data[k % len(data)] % 2, data[k % len(data)], 0x1A00 + k, [0, 1 + k % 200]) for k in range(count)]


def coe(length, count, usages=(1, 2)):
    """A sheet on the CoE path of so many bytes and PDOs."""
    used = 9 + 5 * 4 + len(usages) + 5 * count
    return sheet(COE_FLAGS, managers(4), usages, coe_pdos(count, length - used))


def eeprom(count, manager_count=4, usages=(1,)):
    return sheet(NO_MAILBOX, managers(manager_count), usages, eeprom_pdos(count, manager_count))


def with_length(bytes_):
    """The same with L as its bytes have it."""
    return (len(bytes_) - 2).to_bytes(2, "big") + bytes_[2:]


def table(records, last=None):
    """Records of indexes that no sheet here has, but for the last where one is named."""
    rows = [(0x7000 + k, 3) for k in range(records)]
    return rows[:-1] + [(last, 2)] if last is not None else rows


KIB = 1024
MANY = 63  # PDOs of the CoE sheets that differ in length alone: 16 KiB can't do with fewer
# 62 PDOs of one index and one mapping: each can match a table's last record
ONE_INDEX = sheet(COE_FLAGS, managers(4), (1, 2, 0), coe_pdos(62, 62 * 11, shared=True))

SMALL = [
    Row("document 01's sample", SAMPLE),
    Row("no PDO, CoE", coe(31, 0)),
    Row("no PDO, EEPROM", eeprom(0)),
    Row("16 sync managers, CoE", sheet(COE_FLAGS, managers(16), (1, 2), coe_pdos(14, 14 * 4, 16))),
    Row("16 sync managers, EEPROM", eeprom(14, 16)),
]
BY_LENGTH = [Row(f"{kib} KiB, CoE", coe(kib * KIB, MANY)) for kib in (1, 4, 16)]
BY_PDOS = [Row(f"660 mapping bytes, CoE, {count} PDOs", coe(31 + 5 * count + 660, count)) for count in (4, 100, 255)]
EEPROM = [
    Row("1 KiB, EEPROM", eeprom(142)),
    Row("255 PDOs, EEPROM", eeprom(255)),
    Row("largest of EEPROM PDOs alone", eeprom(255, 16, (0,) * 16)),
    *(
        Row(f"{kib} KiB, EEPROM, of CoE PDOs", sheet(NO_MAILBOX, managers(4), (1,), coe_pdos(MANY, kib * KIB - 30 - 5 * MANY)))
        for kib in (4, 16)
    ),
]
TABLES = [
    Row("table of 0", ONE_INDEX),
    Row("table of 16, no match", ONE_INDEX, table(16)),
    Row("table of 16, the last matches", ONE_INDEX, table(16, 0x1A00)),
    Row("table of 256, no match", ONE_INDEX, table(256)),
    Row("table of 256, the last matches", ONE_INDEX, table(256, 0x1A00)),
]
REFUSED = [
    Row("refused 2: 16 KiB and a byte more", coe(16 * KIB, MANY) + b"\0"),
    Row("refused 4: 16 KiB, its last byte is missing", with_length(coe(16 * KIB, MANY)[:-1])),
    Row("refused 7: 16 KiB, no FMMU of the usage", coe(16 * KIB, MANY, usages=(0, 0))),
]
# the longest sheet in portions of so many bytes, and at once
PORTIONS = [1, 16, 4096, 16386]
IN_PORTIONS = Row("the longest sheet in portions", coe(16 * KIB, MANY))
# sheets that are written again, the last of them the longest; no bit of theirs is one that writing sets to 0
WRITTEN = [SMALL[0], SMALL[2], SMALL[3], EEPROM[1], BY_LENGTH[2]]
ROWS = SMALL + BY_LENGTH + BY_PDOS + EEPROM + TABLES + REFUSED

# the sample's sync managers and bits by EEPROM PDOs: the outputs on 2, the inputs on 3 and 4
BY_EEPROM = sheet(
    NO_MAILBOX,
    (MAILBOX_WRITE, MAILBOX_READ, OUTPUTS, INPUTS, INPUTS),
    (1, 2),
    [(1, 3, 0x1A00, [0, 17]), (1, 4, 0x1A01, [0, 9]), (2, 2, 0x1600, [0, 16])],
)
OWN = [(k, k) for k in range(16)]
BACKWARDS = [(15 - k, k) for k in range(16)]
BY_DIRECTION = [(k % 2, k) for k in range(16)]  # of `managers`, the outputs have even numbers
ALL_ON_0 = [(0, k) for k in range(16)]
# plans by pairs, each beside the same sheet by own numbers; by CoE the pairs aren't read
PAIRED = [
    Row("document 01's sample, CoE", SAMPLE, pairs=[]),
    Row("its like by EEPROM", BY_EEPROM, pairs=[]),
    Row("its like by EEPROM, the inputs merge", BY_EEPROM, pairs=[(3, 4)]),
    Row("its like by EEPROM, own numbers", BY_EEPROM, pairs=OWN),
    Row("its like by EEPROM, own numbers 16 times", BY_EEPROM, pairs=OWN * 16),
    Row("16 sync managers, an entry each, backwards", eeprom(14, 16), pairs=BACKWARDS),
    Row("16 sync managers, an entry for each direction", eeprom(14, 16), pairs=BY_DIRECTION),
    Row("255 PDOs on 16 sync managers, backwards", eeprom(255, 16), pairs=BACKWARDS),
    Row("255 PDOs on 4 sync managers, own numbers", eeprom(255), pairs=OWN),
    Row("refused 18: 255 PDOs, all on one entry", eeprom(255, 16), pairs=ALL_ON_0),
]


# ---- dumps of the category area

FMMU, SYNC_MANAGER, TX_PDO, RX_PDO, UNKNOWN = 40, 41, 50, 51, 10
END_MARK = b"\xff\xff"
MOST_PDO_BYTES = 7 * 255


class Dump(NamedTuple):
    name: str
    data: bytes
    flags: int = NO_MAILBOX
    receive: int = 0
    send: int = 0
    room: int = MOST_PDO_BYTES

    def input(self, times):
        """What both programs read: a request of the probe's letter D, to read it so many times."""
        head = b"D" + bytes([self.flags]) + self.room.to_bytes(2, "big") + times.to_bytes(4, "big")
        head += self.receive.to_bytes(2, "big") + self.send.to_bytes(2, "big") + bytes(8)
        return head + len(self.data).to_bytes(2, "big") + bytes(6) + self.data


def little(value):
    return value.to_bytes(2, "little")


def category(kind, content=b""):
    return little(kind) + little(len(content) // 2) + content


def manager_record(place, usage, control):
    """Start, length, control, status, enable, type."""
    return little(0x1000 + 0x100 * place) + bytes([0, 0, control, 0, 1, usage])


def pdo_record(index, manager, lengths):
    """A head, then an entry for each bit length."""
    entries = (bytes([0, 0x60, 1, 0, 5, length, 0, 0]) for length in lengths)
    return little(index) + bytes([len(lengths), manager, 0, 0, 0, 0]) + b"".join(entries)


def dump(inputs, outputs, unknown=b""):
    """A dump of two usages, four sync managers and PDOs of these bit lengths.

    Unknown categories stand between the two of PDOs, where the library goes over them most often.
    """
    records = [manager_record(k, usage, CONTROL[usage]) for k, usage in enumerate(managers(4))]
    tx = [pdo_record(0x1A00 + k, 3, lengths) for k, lengths in enumerate(inputs)]
    rx = [pdo_record(0x1600 + k, 2, lengths) for k, lengths in enumerate(outputs)]
    data = category(FMMU, bytes([1, 2])) + category(SYNC_MANAGER, b"".join(records))
    return data + category(TX_PDO, b"".join(tx)) + unknown + category(RX_PDO, b"".join(rx)) + END_MARK


def sample_dump(name):
    """A dump of samples/, with what the options in its first line say."""
    lines = (Path(__file__).resolve().parent.parent / "samples" / f"{name}.hex").read_text().splitlines()
    words = lines[0].split()
    options = {word: int(words[words.index(f"--{word}") + 1]) for word in ("flags", "receive", "send")}
    return Dump(f"samples/{name}.hex", bytes.fromhex(" ".join(line.partition("#")[0] for line in lines)), **options)


def pdos_dump(count):
    """PDOs of one entry each, half of them inputs."""
    lengths = [[1 + k % 200] for k in range(count)]
    return Dump(f"{count} PDOs of 1 entry", dump(lengths[count // 2 :], lengths[: count // 2]))


def entries_dump(count):
    return Dump(f"1 PDO of {count} entries", dump([[1 + k % 200 for k in range(count)]], []))


def unknown_dump(count, size):
    """Categories of so many bytes that are stepped over."""
    unknown = category(UNKNOWN, bytes(size)) * count
    return Dump(f"{count:,} unknown of {size:,} bytes", dump([[8]], [[8]], unknown))


# each but the first at half its size, too
DUMPS = [
    sample_dump("bay-dump"),
    *map(pdos_dump, (127, 255)),
    *map(entries_dump, (127, 255)),
    *(unknown_dump(count, 0) for count in (500, 1_000)),
    *(unknown_dump(1, size) for size in (10_000, 20_000)),
]
