"""What a comparison met, counted from the bytes of requests and answers, and how much of each it has to meet."""

from collections import Counter

WHOLE = 100_000
AFTER_INPUTS, KEEPING = 1, 2  # what byte 1 of a call is a sum of
PLACES = range(0, 256, 16)  # where the entries of an FMMU area begin
# of so many plans, at least so many: about half of what the generator gives
MINIMUMS = {
    "keeping, CoE, both not empty": 14_000,
    "keeping, CoE, one not empty": 14_000,
    "keeping, EEPROM, both not empty": 20_000,
    "keeping, EEPROM, one not empty": 12_000,
    "keeping, outputs given": 28_000,
    "keeping, outputs given behind the inputs": 1_700,
    "keeping, outputs straight after": 23_000,
    "keeping, outputs straight after, the lent offset below the group": 600,
    "keeping, added to a used entry": 34_000,
    "keeping, an entry reaches 65,535 bytes": 350,
    "keeping, a sync manager of 8,191 bytes": 3_000,
    "keeping, an offset reaches 4,294,967,295": 700,
    "keeping, table with a repeat": 24_000,
    "keeping, table with a zero": 15_000,
    "keeping, refused 6": 10_000,
    "keeping, refused 7": 4_000,
    "keeping, refused 8": 8_000,
    "keeping, refused 9": 19_000,
    "keeping, refused 10": 12_000,
    "default, CoE, both not empty": 8_000,
    "default, CoE, one not empty": 8_000,
    "default, EEPROM, both not empty": 10_000,
    "default, EEPROM, one not empty": 6_000,
    "default, outputs given": 15_000,
    "default, outputs given behind the inputs": 800,
    "default, outputs straight after": 12_000,
    "default, outputs straight after, the lent offset below the group": 300,
    "default, old entries of both directions": 12_000,
    "default, old entries of one direction": 8_000,
    "default, beside entries in use": 11_000,
    "default, an entry reaches 65,535 bytes": 100,
    "default, a sync manager of 8,191 bytes": 1_600,
    "default, an offset reaches 4,294,967,295": 300,
    "default, table with a repeat": 12_000,
    "default, table with a zero": 8_000,
    "default, refused 6": 5_000,
    "default, refused 7": 2_000,
    "default, refused 8": 600,
    "default, refused 9": 10_000,
    "default, refused 10": 6_000,
    "mailboxes of unequal sizes": 20_000,
    "mailboxes, two of a kind": 8_000,
}


def on_coe(sheet):
    """The path, as document 01 has it: flag bits 0 and 1, and a read mailbox of length above 0."""
    return sheet[3] & 3 == 3 and sheet[6:8] != b"\0\0" and 2 in usages(sheet)


def usages(sheet):
    return sheet[15 : 11 + 5 * sheet[8] : 5]


def kinds(request, answer):
    """What there is to count in one mailbox pass or call and its answer; of a call under whether old entries are kept."""
    if request.letter == "m":
        yield from mailbox_kinds(request)
        return
    name = "keeping" if request.how & KEEPING else "default"
    yield from (f"{name}, {kind}" for kind in call_kinds(request, answer.split(" ")))


def call_kinds(request, words):
    if words[0] != "ok":
        yield " ".join(words[:2])
        return
    path = "CoE" if on_coe(request.sheet) else "EEPROM"
    inputs, outputs = words[1] != words[2], words[3] != words[4]
    if inputs or outputs:
        yield f"{path}, " + ("both not empty" if inputs and outputs else "one not empty")
        yield from start_kinds(request, words, outputs)
        yield from entry_kinds(request, bytes.fromhex(words[7]))
        yield from size_kinds(request, words, bytes.fromhex(words[8]))
        yield from table_kinds(request)
    else:
        yield f"{path}, empty"


def start_kinds(request, words, outputs):
    """Where the outputs start: given anywhere, or straight after the inputs, the lent offset elsewhere or below the group."""
    if not request.how & AFTER_INPUTS:
        yield "outputs given" + (" behind the inputs" if int(words[5]) == request.c else "")
    elif outputs and int(words[5]) != request.c:
        yield "outputs straight after" + (", the lent offset below the group" if request.c < request.b else "")


def entry_kinds(request, after):
    """What became of the entries that were enabled."""
    before = request.fmmus
    if request.how & KEEPING:
        if any(enabled(before, at) and length(before, at) < length(after, at) for at in PLACES):
            yield "added to a used entry"
    else:
        access = {before[at + 11] & 3 for at in PLACES if enabled(before, at)}
        if 0 in access:
            yield "beside entries in use"
        if old := access & {1, 2}:
            yield "old entries of " + ("both directions" if len(old) > 1 else "one direction")
    if any(length(after, at) == 65535 > length(before, at) for at in PLACES):
        yield "an entry reaches 65,535 bytes"


def size_kinds(request, words, channels):
    if any(channels[at + 2 : at + 4] == b"\xff\x1f" for at in range(0, 128, 8)) and channels != request.channels:
        yield "a sync manager of 8,191 bytes"
    if "4294967295" in words[5:7]:
        yield "an offset reaches 4,294,967,295"


def table_kinds(request):
    indexes = [index for index, _ in request.table]
    if len(set(indexes)) < len(indexes):
        yield "table with a repeat"
    if any(multiplier == 0 for _, multiplier in request.table):
        yield "table with a zero"


def mailbox_kinds(request):
    sheet = request.sheet
    boxes = Counter(usages(sheet))
    if not sheet[3] & 1:
        yield "mailboxes, none wanted"
    elif boxes[1] and boxes[2] and sheet[4:6] != sheet[6:8]:
        yield "mailboxes of unequal sizes"
    if sheet[3] & 1 and (boxes[1] > 1 or boxes[2] > 1):
        yield "mailboxes, two of a kind"


def length(area, at):
    return area[at + 4] | area[at + 5] << 8


def enabled(area, at):
    return area[at + 12] & 1
