"""What the command rigpollen says, against a reference written from the customer's papers alone.

    python3 tests/command_reference.py RIGPOLLEN [COUNT]

COUNT boards, 400 if not given, are drawn from a fixed seed. Of each board the command is asked check and dump and, if it
boots, map, map --all and some walks. Every line must be the reference's; of a dump, the records must be the block's. At
the first difference the board's files are kept and the status is 1. It is 1 too where a case was met too seldom.

THE RULES follow 01 (the rules) and A1 to A7 of 02 (the requests), in their order. THE WORDS are the command's, for what
the rules say. THE BOARDS are drawn so that many boot and many miss a rule by one. THE COMPARISON runs the command.
"""
import random
import shutil
import string
import struct
import subprocess
import sys
import tempfile
from collections import Counter, namedtuple
from pathlib import Path

# -------------------------------------------------------------------------------------------------------------- THE RULES

PAGE = 4096
ADDRESSES = 2**32
LEAF_SPAN = 1024 * PAGE  # what one leaf table maps: 4 MiB
NOCOPY, WRITABLE, EXECUTABLE = 1, 2, 4
KERNEL = 1
KERNEL_RANGE = range(0xFFC00000, 0xFFF00000)
STACK_END = 0x80000000
COPY_AT, TRACKER_AT, LIST_AT = 0xFFF00000, 0xFFF40000, 0xFFF80000

Board = namedtuple("Board", "block flash flash_start ram_start ram_pages")


class Process(namedtuple("Process", "entry first_section sections kind_word")):
    @property
    def kind(self):
        """02, A7: bits 0 to 7."""
        return self.kind_word & 0xFF

    @property
    def stack_pages(self):
        """02, A7: bits 8 to 15 of a user process's kind word, 0 meaning sixteen."""
        return (self.kind_word >> 8 & 0xFF) or 16

    def sections_range(self, number):
        """Where process `number` may have sections. 02, A7: a user's range ends just below its stack."""
        return KERNEL_RANGE if number == KERNEL else range(0x00001000, STACK_END - self.stack_pages * PAGE)


class Section(namedtuple("Section", "address size flash_offset flags")):
    @property
    def addresses(self):
        return range(self.address, self.address + self.size)

    @property
    def pages(self):
        """Its virtual pages. 01: 2 bytes at 0x00010FFF take two."""
        return range(self.address // PAGE, (self.address + self.size - 1) // PAGE + 1)


class Region(namedtuple("Region", "start pages")):
    @property
    def addresses(self):
        return range(self.start, self.start + self.pages * PAGE)


class Block:
    """The records of a block whose header is good. 01: they lie tight."""

    def __init__(self, data):
        p, s, r = struct.unpack_from("<8I", data)[2::2]
        self.sections_at = 32 + 16 * p
        self.regions_at = self.sections_at + 16 * s
        self.processes = [Process(*struct.unpack_from("<4I", data, 32 + 16 * i)) for i in range(p)]
        self.sections = [Section(*struct.unpack_from("<4I", data, self.sections_at + 16 * n)) for n in range(s)]
        self.regions = [Region(*struct.unpack_from("<2I", data, self.regions_at + 8 * i)) for i in range(r)]
        self.users = range(2, p + 1)

    def process(self, number):
        """01: record i is process i+1."""
        return self.processes[number - 1]

    def sections_of(self, number):
        """The numbers of a process's section records."""
        first = self.process(number).first_section
        return range(first, first + self.process(number).sections)

    def owner(self, n):
        return next(number for number in [KERNEL, *self.users] if n in self.sections_of(number))

    def io_pages(self):
        return sum(region.pages for region in self.regions)


def up_to_page(count):
    return (count + PAGE - 1) // PAGE * PAGE


def ram_of(board):
    """Its physical addresses. 01: ends are whole-number sums; nothing wraps."""
    return range(board.ram_start, board.ram_start + board.ram_pages * PAGE)


def flash_of(board):
    return range(board.flash_start, board.flash_start + len(board.flash))


def share(one, other):
    """Whether an address is in both."""
    return max(one.start, other.start) < min(one.stop, other.stop)


def ends(addresses):
    return addresses[0], addresses[-1]


# Refusals. The functions below give a number, a cause in the order of 01's words (02's beside those they extend), and the
# values that show it.

Refusal = namedtuple("Refusal", "number place byte process cause values")


def refusal(board):
    """The first in order; None if the board boots."""
    for place, byte, process, causes in checks(board):
        for number, cause, *values in causes:
            return Refusal(number, place, byte, process, cause, values)
    return None


def checks(board):
    """What is tried, in order: the record's place, its byte (02, A5) and process, and what is wrong with it. A check is
    reached only if those before it found nothing, and relies on that."""
    yield 0, 0, 0, area_causes(board)
    yield 0, 0, 0, header_causes(board.block)
    block = Block(board.block)
    for i in range(len(block.processes)):
        yield i, 32 + 16 * i, i + 1, process_causes(block, i)
    for n in range(len(block.sections)):
        yield n, block.sections_at + 16 * n, block.owner(n), section_causes(board, block, n)
    for i in range(len(block.processes)):
        yield i, 32 + 16 * i, i + 1, entry_causes(block, i + 1)
    for i in range(len(block.regions)):
        yield i, block.regions_at + 8 * i, 0, region_causes(board, block, i)
    yield 0, 0, 0, room_causes(board, block)


def area_causes(board):
    """01: 1. The command is given RAM in whole pages. 02, A6: 13, after 1."""
    ram, flash = ram_of(board), flash_of(board)
    if board.ram_pages > 4096:
        yield 1, "over 4,096 pages", board.ram_pages
    if ram.start % PAGE != 0:
        yield 1, "start is no multiple of 4,096", ram.start
    if ram.stop > ADDRESSES:
        yield 1, "end passes 2^32", *ends(ram)
    if flash.start % PAGE != 0:
        yield 13, "start is no multiple of 4,096", flash.start
    if flash.stop > ADDRESSES:
        yield 13, "end passes 2^32", *ends(flash)
    if share(flash, ram):
        yield 13, "shares an address with RAM", *ends(flash), *ends(ram)


def header_causes(data):
    """01: 2 to 5."""
    if len(data) < 32:
        yield 2, "under 32 bytes", len(data)
    form, length, p, processes_at, s, sections_at, r, regions_at = struct.unpack_from("<8I", data)
    if form != 1:
        yield 3, "format is not 1", form
    for name, count, least, most in (("process", p, 1, 16), ("section", s, 1, 64), ("region", r, 0, 32)):
        if not least <= count <= most:
            yield 4, name + " count is outside its bounds", count, least, most
    tight_length = 32 + 16 * p + 16 * s + 8 * r
    for name, found, tight in (("process offset", processes_at, 32), ("section offset", sections_at, 32 + 16 * p),
                               ("region offset", regions_at, 32 + 16 * p + 16 * s), ("length field", length, tight_length),
                               ("true length", len(data), tight_length)):
        if found != tight:
            yield 5, name + " is not tight", found, tight


def process_causes(block, i):
    """01: 6. 02, A6: kind 2 and up, or kind 1 on the kernel; A7: a bit above 15, or bits 8 to 15 on the kernel."""
    process, s = block.processes[i], len(block.sections)
    before = sum(other.sections for other in block.processes[:i])
    after = before + process.sections
    if i == 0 and process.kind_word != 0:
        yield 6, "kernel's kind word is not 0", process.kind_word
    if process.kind > 1:
        yield 6, "kind is 2 or more", process.kind, process.kind_word
    if process.kind_word >> 16 != 0:
        yield 6, "kind word has a bit above 15", process.kind_word
    if process.sections == 0:
        yield 6, "section count is 0"
    if process.first_section != before:
        yield 6, "first section is not the sum before", process.first_section, before
    if after > s:
        yield 6, "sum passes the section count", process.sections, after, s
    if i == len(block.processes) - 1 and after != s:
        yield 6, "last sum is not the section count", after, s


def section_causes(board, block, n):
    """01: 7, 8 and 9 are tried together for one section before the next."""
    section, owner = block.sections[n], block.owner(n)
    if section.size == 0:
        yield 7, "size is 0"
    if section.flags > NOCOPY + WRITABLE + EXECUTABLE:
        yield 7, "a flag above 4 is set", section.flags
    if section.flags & WRITABLE and section.flags & EXECUTABLE:
        yield 7, "writable and executable", section.flags
    if section.flags & NOCOPY and section.flash_offset != 0:
        yield 7, "NOCOPY with a flash offset", section.flags, section.flash_offset
    allowed = block.process(owner).sections_range(owner)
    whose = "kernel's" if owner == KERNEL else "user's"
    if section.addresses[0] < allowed[0]:
        yield 8, "starts below the %s range" % whose, section.addresses[0], allowed[0]
    if section.addresses[-1] > allowed[-1]:
        yield 8, "ends past the %s range" % whose, section.addresses[-1], allowed[-1], block.process(owner).stack_pages
    if n - 1 in block.sections_of(owner) and section.pages[0] <= block.sections[n - 1].pages[-1]:
        yield 8, "first page is not above the section before", section.pages[0], block.sections[n - 1].pages[-1]
    end = section.flash_offset + section.size
    if not section.flags & NOCOPY and end > len(board.flash):
        yield 9, "runs past the end of flash", section.size, section.flash_offset, end, len(board.flash)


def entry_causes(block, number):
    """01: 10, an entry point in no executable section of its process; told in three ways."""
    entry = block.process(number).entry
    own = {n: block.sections[n] for n in block.sections_of(number)}
    executable = [n for n in own if own[n].flags & EXECUTABLE]
    holders = [n for n in own if entry in own[n].addresses]
    if any(n in executable for n in holders):
        return
    if holders:
        yield 10, "entry point is in a section that is not executable", entry, holders[0]
    if not executable:
        yield 10, "entry point is in no section, and none is executable", entry
    else:
        nearest = min(executable, key=lambda n: min(abs(entry - end) for end in ends(own[n].addresses)))
        yield 10, "entry point is in no section", entry, nearest, *ends(own[nearest].addresses)


def region_causes(board, block, i):
    """01: 11. 02, A6: flash beside RAM."""
    region, before = block.regions[i].addresses, block.regions[:i]
    if region.start % PAGE != 0:
        yield 11, "start is no multiple of 4,096", region.start
    if len(region) == 0:
        yield 11, "pages are 0"
    if region.stop > ADDRESSES:
        yield 11, "end passes 2^32", *ends(region)
    if before and region.start < before[-1].addresses.stop:
        yield 11, "starts below the end of the region before", region.start, before[-1].addresses[-1]
    if share(region, ram_of(board)):
        yield 11, "shares an address with RAM", *ends(region), *ends(ram_of(board))
    if share(region, flash_of(board)):
        yield 11, "shares an address with flash", *ends(region), *ends(flash_of(board))
    total = sum(other.pages for other in block.regions[:i + 1])
    if total > 4096:
        yield 11, "I/O total is over 4,096", total


def room_causes(board, block):
    """01: 12. With the smallest RAM on which the block boots, and what so many pages draw where this RAM starts.
    (That no start has room for them takes flash of nearly 2^32 bytes, and is not drawn.)"""
    if pages_needed(board, block) <= board.ram_pages:
        return
    smallest = smallest_ram(board, block)
    larger = smallest and refusal(board._replace(ram_pages=smallest))
    if smallest is None:
        yield 12, "over 4,096 pages are needed", board.ram_pages
    elif larger is None:
        yield 12, "too few pages", board.ram_pages, smallest
    else:
        yield 12, "too few pages, and no room for enough", board.ram_pages, smallest, board.ram_start, larger


# Pages. A stretch is pages taken one after the other, alike but for their addresses. `rights` are some of "rwxu", none
# where no process sees the pages; `address` is where the first page is seen or, of a leaf table, what it maps first;
# `number` is that of the section record or, of a table, of its process.

Stretch = namedtuple("Stretch", "use owner pages rights address number", defaults=("", 0, 0))


def section_pages(block, n):
    """01: a section's pages belong to its process; user pages are read and user, kernel pages the same without user."""
    section, owner = block.sections[n], block.owner(n)
    rights = "r" + "w" * bool(section.flags & WRITABLE) + "x" * bool(section.flags & EXECUTABLE) + "u" * (owner != KERNEL)
    return Stretch("section", owner, len(section.pages), rights, section.pages[0] * PAGE, n)


def why_copied(board, block, n):
    """02, A6: why a section takes RAM; None where it is used in place in flash."""
    section = block.sections[n]
    if block.process(block.owner(n)).kind != 1 or section.flags & (NOCOPY | WRITABLE):
        return "by its kind or flags"
    end = section.flash_offset + section.size
    first_page, pages_end = section.flash_offset // PAGE * PAGE, up_to_page(end)
    if section.flash_offset % PAGE != section.address % PAGE:
        return "for another offset modulo 4,096"
    if pages_end > len(board.flash):
        return "for the image's end"
    if any(board.flash[first_page:section.flash_offset]) or any(board.flash[end:pages_end]):
        return "for a byte beside it"
    return None


def tracker_pages(ram_pages, block):
    """01: as many pages as hold one byte for each RAM and I/O page."""
    return up_to_page(ram_pages + block.io_pages()) // PAGE


def leaf_blocks(block, number):
    """01: each 4 MiB block that has a section page or the stack, rising. 02, A7: the stack is in block 511."""
    pages = [block.sections[n].pages for n in block.sections_of(number)]
    return sorted({511}.union(*(range(own[0] // 1024, own[-1] // 1024 + 1) for own in pages)))


def pages_taken(board, block):
    """01: the order of pages, from the top down."""
    taken = [Stretch("top", KERNEL, 4)]
    for number in [*block.users, KERNEL]:
        taken += [section_pages(block, n) for n in block.sections_of(number) if why_copied(board, block, n)]
    taken += [Stretch("tracker", KERNEL, tracker_pages(board.ram_pages, block), "rw", TRACKER_AT),
              Stretch("list", KERNEL, 1, "r", LIST_AT),
              Stretch("copy", KERNEL, 1, "r", COPY_AT),
              Stretch("root", KERNEL, 1, number=KERNEL),
              Stretch("leaf", KERNEL, 1, "", 1023 * LEAF_SPAN, KERNEL)]
    for number in block.users:
        taken.append(Stretch("root", KERNEL, 1, number=number))
        taken += [Stretch("leaf", KERNEL, 1, "", leaf * LEAF_SPAN, number) for leaf in leaf_blocks(block, number)]
    return taken


def pages_needed(board, block):
    return sum(stretch.pages for stretch in pages_taken(board, block))


def smallest_ram(board, block):
    """The least number of pages that is not under what it needs; None if over 4,096."""
    others = pages_needed(board, block) - tracker_pages(board.ram_pages, block)
    return next((pages for pages in range(4097) if others + tracker_pages(pages, block) <= pages), None)


# What a process sees: case is absent, reserved or page; `page` is counted from the start of RAM or flash, `area`.

Seen = namedtuple("Seen", "case area page byte stretch", defaults=(None, 0, 0, None))


class Boot:
    """A board after an accepted load. `taken` and `in_place` pair a stretch with the RAM or flash page that is its first;
    then RAM pages fall and flash pages rise."""

    def __init__(self, board):
        self.board, self.block, self.taken = board, Block(board.block), []
        self.free = board.ram_pages
        for stretch in pages_taken(board, self.block):
            self.taken.append((self.free - 1, stretch))
            self.free -= stretch.pages
        self.in_place = [(section.flash_offset // PAGE, section_pages(self.block, n))
                         for n, section in enumerate(self.block.sections) if not why_copied(board, self.block, n)]
        self.roots = {stretch.number: board.ram_start + page * PAGE for page, stretch in self.taken if stretch.use == "root"}
        falling = [stretch.owner for _, stretch in self.taken for _ in range(stretch.pages)] + [0] * self.free
        self.tracker = bytes(reversed(falling)) + bytes(self.block.io_pages())
        self.list = b"".join(self.list_entry(number) for number in self.roots)

    def list_entry(self, number):
        """01: satp, entry point, stack pointer."""
        satp = 2**31 + 2**22 * number + self.roots[number] // PAGE
        return struct.pack("<3I", satp, self.block.process(number).entry, 0 if number == KERNEL else STACK_END)

    def contents(self, stretch):
        """The bytes that stand in these pages, and the address of the first. 01: a taken page holds zero elsewhere."""
        if stretch.use != "section":
            return stretch.address, {"tracker": self.tracker, "list": self.list, "copy": self.board.block}[stretch.use]
        section = self.block.sections[stretch.number]
        flash = self.board.flash[section.flash_offset:section.flash_offset + section.size]
        return section.address, bytes(section.size) if section.flags & NOCOPY else flash

    def seen(self, number, address):
        if number != KERNEL and address in range(self.block.process(number).sections_range(number).stop, STACK_END):
            return Seen("reserved")
        for page, stretch in self.taken + self.in_place:
            further = (address - stretch.address) // PAGE
            # 01: entry 1,023 of every root points to the kernel's leaf table, so all processes have the kernel's pages.
            if not stretch.rights or stretch.owner not in (number, KERNEL) or further not in range(stretch.pages):
                continue
            if (page, stretch) in self.in_place:
                return Seen("page", "flash", page + further, self.board.flash[(page + further) * PAGE + address % PAGE], stretch)
            start, contents = self.contents(stretch)
            byte = contents[address - start] if address - start in range(len(contents)) else 0
            return Seen("page", "RAM", page - further, byte, stretch)
        return Seen("absent")


# -------------------------------------------------------------------------------------------------------------- THE WORDS

OFF_PAGE = "starts at 0x{:08X}, not a multiple of 4096"
PAST_END = "starts at 0x{:08X}, its last byte is at 0x{:X}, past 0xFFFFFFFF"
SHARED = "0x{:08X} to 0x{:08X} shares addresses with %s, 0x{:08X} to 0x{:08X}"
CAUSES = {
    1: {"over 4,096 pages": "{} pages, 4096 are the most",
        "start is no multiple of 4,096": OFF_PAGE,
        "end passes 2^32": PAST_END},
    13: {"start is no multiple of 4,096": OFF_PAGE,
         "end passes 2^32": PAST_END,
         "shares an address with RAM": SHARED % "RAM"},
    2: {"under 32 bytes": "{:byte}, its header alone has 32"},
    3: {"format is not 1": "format is 0x{:08X}, not 1"},
    4: {name + " count is outside its bounds": name + " count is {}, not {} to {}" for name in ("process", "section", "region")},
    5: {"process offset is not tight": "header: offset of the process records is {}, not {}",
        "section offset is not tight": "header: offset of the section records is {}, the counts give {}",
        "region offset is not tight": "header: offset of the region records is {}, the counts give {}",
        "length field is not tight": "header: length field is {}, the counts give {}",
        "true length is not tight": "block: its length in bytes is {}, the counts give {}"},
    6: {"kernel's kind word is not 0": "kind word is 0x{:08X}, the kernel's is 0",
        "kind is 2 or more": "kind is {} (kind word 0x{:08X}), not 0 or 1",
        "kind word has a bit above 15": "kind word is 0x{:08X}, bits 16 to 31 are not 0",
        "section count is 0": "section count is 0, at least 1 is needed",
        "first section is not the sum before": "first section is {0}, the processes before have {1:section}: it must be {1}",
        "sum passes the section count": "with its {:section} there are {}, the block has {}",
        "last sum is not the section count": "it is the last, and all processes together have {:section}, the block has {}"},
    7: {"size is 0": "size is 0, at least 1 is needed",
        "a flag above 4 is set": "flags are 0x{:08X}, over 7: an unknown flag is set",
        "writable and executable": "flags are {}: writable and executable at once",
        "NOCOPY with a flash offset": "flags are {}: NOCOPY, but its flash offset is {}, not 0"},
    8: {"starts below the kernel's range": "starts at 0x{:08X}, the kernel's range starts at 0x{:08X}",
        "starts below the user's range": "starts at 0x{:08X}, its process's range starts at 0x{:08X}",
        "ends past the kernel's range": "its last byte is at 0x{:08X}, the kernel's range ends at 0x{:08X}",
        "ends past the user's range":
            "its last byte is at 0x{:08X}, its process's range ends at 0x{:08X}, below a stack of {:page}",
        "first page is not above the section before": "starts at page 0x{:X}, the section before ends at page 0x{:X}"},
    9: {"runs past the end of flash": "{:byte} from flash offset {} on need flash of {} bytes, it has {}"},
    10: {"entry point is in a section that is not executable":
             "entry point 0x{:08X} is in section record {}, which is not executable",
         "entry point is in no section, and none is executable":
             "entry point 0x{:08X} is in none of its sections, and none of them is executable",
         "entry point is in no section": "entry point 0x{:08X} is in none of its sections; "
                                         "the nearest executable one is section record {}, 0x{:08X} to 0x{:08X}"},
    11: {"start is no multiple of 4,096": OFF_PAGE,
         "pages are 0": "pages are 0, at least 1 is needed",
         "end passes 2^32": PAST_END,
         "starts below the end of the region before": "starts at 0x{:08X}, the region before ends at 0x{:08X}",
         "shares an address with RAM": SHARED % "RAM",
         "shares an address with flash": SHARED % "flash",
         "I/O total is over 4,096": "brings the I/O pages to {}, 4096 are the most"},
    12: {"over 4,096 pages are needed": "{:page}, over 4096 are needed, and no RAM has more",
         "too few pages": "{:page}, the smallest RAM on which it boots has {}",
         "too few pages, and no room for enough":
             "{:page}, the smallest RAM on which it boots has {}; but from 0x{:08X} on that many draw {}"},
}
SUBJECTS = {1: "RAM: ", 13: "flash: ", 2: "block: ", 3: "header: ", 4: "header: ", 5: "", 12: "RAM: ",
            11: "region record {place}: ",
            **dict.fromkeys([6, 10], "process record {place} (process {process}{kernel}): "),
            **dict.fromkeys([7, 8, 9], "section record {place} (process {process}): ")}
USES = {"free": "free", "top": "loader's stack and guard", "section": "section record {0.number}", "tracker": "page tracker",
        "list": "process list", "copy": "copy of the block", "root": "root table of process {0.number}",
        "leaf": "leaf table of process {0.number}, for 0x{0.address:08X} to 0x{1:08X}"}
RIGHTS = {"r": "read", "w": "write", "x": "execute", "u": "user"}
COLUMNS = "{:<10}  {:<21}  {:<7}  {:<21}  {:<6}  {}"


class Words(string.Formatter):
    """{:page} is `1 page`, `2 pages`."""

    def format_field(self, value, spec):
        if spec in ("byte", "page", "section"):
            return "%d %s%s" % (value, spec, "" if value == 1 else "s")
        return super().format_field(value, spec)


say = Words().format


def cause_text(refused):
    values = ["%d: %s" % (value.number, cause_text(value)) if isinstance(value, Refusal) else value for value in refused.values]
    subject = say(SUBJECTS[refused.number], kernel=", the kernel" if refused.process == KERNEL else "", **refused._asdict())
    return subject + say(CAUSES[refused.number][refused.cause], *values)


def refusal_lines(refused, before=""):
    return [before + say("refused {} at {}, byte {}", *refused[:3]), before + cause_text(refused)]


def check_lines(boot):
    ram_pages = boot.board.ram_pages
    lines = [say("boots: RAM of {} pages, {} taken, {} free; page tracker {:page}", ram_pages, ram_pages - boot.free, boot.free,
                 tracker_pages(ram_pages, boot.block))]
    for number, root in boot.roots.items():
        process = boot.block.process(number)
        stack = say("stack of {:page} from 0x{:08X}", process.stack_pages, process.sections_range(number).stop)
        lines.append(say("process {}{}: {:page}, root table 0x{:08X}, {}", number, " (the kernel)" if number == KERNEL else "",
                         boot.tracker.count(number), root, "no stack" if number == KERNEL else stack))
    return lines + [say("smallest RAM on which it boots: {} pages", smallest_ram(boot.board, boot.block))]


def map_line(start, page, step, stretch):
    """A stretch whose first page is page `page` of RAM, which falls (step -1), or of flash, which rises."""
    def pair(form, first, further):
        return form % first + ("-" + form % (first + further * (stretch.pages - 1)) if stretch.pages > 1 else "")
    rights = "".join(right if right in stretch.rights else "-" for right in RIGHTS)
    return COLUMNS.format(pair("%d", page, step), pair("0x%08X", start + page * PAGE, step * PAGE), stretch.owner or "-",
                          pair("0x%08X", stretch.address, PAGE) if stretch.rights else "-", rights if stretch.rights else "-",
                          USES[stretch.use].format(stretch, stretch.address + stretch.pages * LEAF_SPAN - 1))


def page_by_page(step, stretches):
    """As `map --all` has them."""
    return [(page + step * i, stretch._replace(pages=1, address=stretch.address + i * PAGE))
            for page, stretch in stretches for i in range(stretch.pages)]


def joined(step, stretches):
    """As `map` has them: leaf tables of one process that map one 4 MiB block after the other are in one line."""
    lines = []
    for page, stretch in stretches:
        first, before = lines[-1] if lines else (page, stretch)
        if stretch.use == "leaf" and stretch == before._replace(pages=1, address=before.address + before.pages * LEAF_SPAN):
            lines[-1] = first, before._replace(pages=before.pages + 1)
        else:
            lines.append((page, stretch))
    return lines


def map_lines(boot, spread):
    head = "physical address", "virtual address", "rights", "use"
    free = [(boot.free - 1, Stretch("free", 0, boot.free))] if boot.free else []
    lines = [COLUMNS.format("RAM page", head[0], "owner", *head[1:])]
    lines += [map_line(boot.board.ram_start, page, -1, stretch) for page, stretch in spread(-1, boot.taken + free)]
    if boot.in_place:
        lines += ["", COLUMNS.format("flash page", head[0], "process", *head[1:])]
    return lines + [map_line(boot.board.flash_start, page, 1, stretch) for page, stretch in spread(1, boot.in_place)]


def holds_line(boot, stretch, address):
    start, contents = boot.contents(stretch)
    name, beside = USES[stretch.use].format(stretch), "zero after the {} of {} bytes"
    if stretch.use == "section":
        name += " (process %d)" % stretch.owner
        beside = "zero beside {}, 0x{start:08X} to 0x{last:08X}"
    if address - start in range(len(contents)):
        return say("holds     {}, byte {} of {}", name, address - start, len(contents))
    return "holds     " + say(beside, name, len(contents), start=start, last=start + len(contents) - 1)


def walk_lines(boot, number, address):
    seen, process = boot.seen(number, address), boot.block.process(number)
    line = say("process {} at 0x{:08X}: {}", number, address, seen.case)
    if seen.case == "absent":
        return [line]
    if seen.case == "reserved":
        start, pages = process.sections_range(number).stop, process.stack_pages
        return [line + say(", page {} of the {} of its stack from 0x{:08X}", (address - start) // PAGE + 1, pages, start)]
    start = boot.board.ram_start if seen.area == "RAM" else boot.board.flash_start
    physical = start + seen.page * PAGE + address % PAGE
    rights = " ".join(RIGHTS[right] for right in seen.stretch.rights)
    return [line, "rights    " + rights + ("" if "u" in seen.stretch.rights else ", for the kernel alone"),
            say("physical  0x{:08X}, page 0x{:X}, {} page {}", physical, physical // PAGE, seen.area, seen.page),
            say("byte      0x{:02X}", seen.byte), holds_line(boot, seen.stretch, address)]


# ------------------------------------------------------------------------------------------------------------- THE BOARDS

def write_block(processes, sections, regions):
    p, s, r = len(processes), len(sections), len(regions)
    header = 1, 32 + 16 * p + 16 * s + 8 * r, p, 32, s, 32 + 16 * p, r, 32 + 16 * p + 16 * s
    return b"".join(struct.pack("<%dI" % len(record), *record) for record in [header, *processes, *sections, *regions])


def draw_flash(rng):
    """Random bytes, and stretches of zeros."""
    length = rng.choice([0, 1, 4095, 4096, 4097, 3 * PAGE, 4 * PAGE, 5 * PAGE, rng.randrange(6 * PAGE)])
    flash = bytearray(rng.randbytes(length))
    for _ in range(rng.randrange(3)):
        clear(flash, rng.randrange(length + 1), rng.randrange(length + 1))
    return flash


def clear(flash, start, end):
    end = min(end, len(flash))
    flash[start:end] = bytes(max(end - start, 0))


def draw_section(rng, flash, address):
    flags = rng.choice([0, WRITABLE, EXECUTABLE, EXECUTABLE, NOCOPY, NOCOPY | WRITABLE, NOCOPY | EXECUTABLE])
    size = rng.choice([1, 2, 64, 4095, 4096, 4097, rng.randrange(1, 3 * PAGE)])
    if flags & NOCOPY or not flash:
        large = rng.choice([LEAF_SPAN - 1, LEAF_SPAN, LEAF_SPAN + 1, 9 * 2**20])
        return Section(address, large if rng.random() < 0.03 else size, 0, flags | NOCOPY)
    size = min(size, len(flash))
    agreeing = range(address % PAGE, len(flash) - size + 1, PAGE)
    offset = rng.choice([0, len(flash) - size, *agreeing, *agreeing])
    if rng.random() < 0.5:  # so that it may be used in place
        clear(flash, offset // PAGE * PAGE, offset)
        clear(flash, offset + size, up_to_page(offset + size))
    return Section(address, size, offset, flags)


def draw_sections(rng, flash, allowed, most):
    """At least one, and at least one that is executable."""
    address = rng.choice([allowed[0], allowed[0] + rng.randrange(2 * PAGE), rng.choice(allowed[:len(allowed) // 2])])
    sections = []
    while len(sections) < most:
        section = draw_section(rng, flash, address)
        if section.addresses.stop > allowed.stop:
            break
        sections.append(section)
        gap = rng.choice([0, 0, rng.randrange(PAGE), rng.randrange(9 * PAGE), rng.randrange(LEAF_SPAN), LEAF_SPAN])
        address = (section.pages[-1] + 1) * PAGE + gap
    sections = sections or [Section(allowed[0], 16, 0, NOCOPY)]
    if rng.random() < 0.25:
        sections[-1] = sections[-1]._replace(address=allowed.stop - sections[-1].size)
    if not any(section.flags & EXECUTABLE for section in sections):
        sections[0] = sections[0]._replace(flags=sections[0].flags & NOCOPY | EXECUTABLE)
    return sections


def draw_processes(rng, flash):
    count = rng.choice([1, 2, 2, 3, 4, 5, 16, rng.randrange(1, 17)])
    processes, sections = [], []
    for number in range(1, count + 1):
        stack, kind = rng.choice([0, 0, 1, 4, 16, 255, rng.randrange(256)]), rng.choice([0, 1, 1])
        process = Process(0, len(sections), 0, 0 if number == KERNEL else stack << 8 | kind)
        most = min(64 - len(sections) - (count - number), rng.choice([1, 1, 2, 3, 4, rng.randrange(1, 20)]))
        own = draw_sections(rng, flash, process.sections_range(number), most)
        entered = rng.choice([section.addresses for section in own if section.flags & EXECUTABLE])
        processes.append(process._replace(entry=rng.choice([*ends(entered), rng.choice(entered)]), sections=len(own)))
        sections += own
    return processes, sections


def draw_region_pages(rng):
    """At most 4,096 in all, now and then 4,096."""
    count = rng.choice([0, 1, 1, 2, 3, 32, rng.randrange(33)])
    pages = [rng.choice([1, 1, 2, 3, rng.randrange(1, 100)]) for _ in range(count)]
    if pages and rng.random() < 0.15:
        pages[-1] += 4096 - sum(pages)
    return pages


def draw_starts(rng, pages):
    """Where areas of so many pages start: rising, some touching the next, some from 0 on, some up to 2^32."""
    starts, end = [], 0
    for count in pages:
        starts.append(end + rng.choice([0, 0, 1, rng.randrange(4096)]))
        end = starts[-1] + count
    spare = ADDRESSES // PAGE - end
    shift = rng.choice([0, spare, rng.randrange(spare)])
    return [(start + shift) * PAGE % ADDRESSES for start in starts]


def draw_good_board(rng):
    """A board that boots, if its RAM has pages enough."""
    flash = draw_flash(rng)
    processes, sections = draw_processes(rng, flash)
    regions = [Region(0, pages) for pages in draw_region_pages(rng)]
    board = Board(write_block(processes, sections, regions), bytes(flash), 0, 0, 0)
    smallest = smallest_ram(board, Block(board.block)) or 4096
    ram_pages = smallest + rng.choice([0, 0, 1, *[rng.randrange(60)] * 4, -1, -rng.randrange(smallest)])
    if rng.random() < 0.06:
        ram_pages = 4096 - rng.choice([0, 1, sum(region.pages for region in regions)])
    ram_pages = min(ram_pages, 4096)
    areas = [("RAM", ram_pages), ("flash", up_to_page(len(flash)) // PAGE), *(("region", region.pages) for region in regions)]
    rng.shuffle(areas)
    starts = draw_starts(rng, [pages for _, pages in areas])
    regions = [Region(start, pages) for start, (name, pages) in zip(starts, areas) if name == "region"]
    places = {name: start for start, (name, _) in zip(starts, areas)}
    return Board(write_block(processes, sections, regions), board.flash, places["flash"], places["RAM"], ram_pages)


# Faults, on both sides of each rule's edge, so not all are refused. Some make several causes true: the first must be told.
# Each function gives several changed boards.

def put(board, at, record):
    """With these words at a byte of the block, as far as the block reaches."""
    data = struct.pack("<%dI" % len(record), *(word % ADDRESSES for word in record))
    return board._replace(block=(board.block[:at] + data + board.block[at + len(data):])[:len(board.block)])


def area_faults(rng, board, block):
    """In RAM's and flash's places and sizes, and in the block's length."""
    ram, flash_bytes, off_page = ram_of(board), up_to_page(len(board.flash)), rng.choice([0, 0, 0, 1, 4095])
    ram_starts = ram.start + rng.choice([1, 4095]), ADDRESSES - len(ram), ADDRESSES - len(ram) + PAGE, ADDRESSES - 4095
    flash_starts = (board.flash_start + rng.choice([1, 4095]), ADDRESSES - flash_bytes, ADDRESSES - PAGE, ADDRESSES - 4095,
                    ram.start - flash_bytes, ram.start - flash_bytes + PAGE + off_page, ram.stop, ram.stop - PAGE + off_page)
    lengths = rng.randrange(32), 32, len(board.block) - 1, len(board.block) + rng.choice([1, 8])
    return [*[board._replace(ram_pages=pages) for pages in (rng.choice([0, 1, 4096]), 4097)],
            board._replace(ram_pages=ADDRESSES - 1, ram_start=ram.start + 1),
            *[board._replace(ram_start=start % ADDRESSES) for start in ram_starts],
            *[board._replace(flash_start=start % ADDRESSES) for start in flash_starts],
            *[board._replace(block=(board.block + bytes(8))[:length]) for length in lengths]]


def word_faults(rng, board, block):
    """In the counts at their bounds, in several words of the header, in each of them, and in any word of the block."""
    changed = [put(board, at, [count]) for at, most in ((8, 16), (16, 64), (24, 32)) for count in (most, most + 1)]
    for fields in ((8, 16, 24), (16, 24), (12, 20, 28, 4), (20, 28, 4), (28, 4)):
        spoiled = board
        for at in fields:
            spoiled = put(spoiled, at, [99])
        changed.append(spoiled._replace(block=spoiled.block + bytes(rng.randrange(2))))
    for at in [*range(0, 32, 4), rng.randrange(0, len(board.block) + 1, 4)]:
        old = int.from_bytes(board.block[at:at + 4], "little")
        new = rng.choice([0, ADDRESSES - 1, old - 1, old + 1, old + 16, old ^ 1 << rng.randrange(32)])
        changed.append(put(board, at, [new]))
    return changed


def process_faults(rng, board, block):
    number, last = rng.choice([KERNEL, *block.users, *block.users]), block.processes[-1]
    process = block.process(number)
    another_first = process.first_section + rng.choice([-1, 1, 64])
    changed = [put(board, block.sections_at - 16, last._replace(sections=last.sections + more)) for more in (-1, 1)]
    return changed + [put(board, 16 + 16 * number, process._replace(**change)) for change in (
        {"kind_word": process.kind_word ^ rng.choice([1, 0x100, 0xFF00])},
        {"kind_word": process.kind_word & 0xFF00 | rng.choice([2, 0xFF])}, {"kind_word": 0x10002},
        {"kind_word": process.kind_word | rng.choice([0x10000, 0x80000000]), "sections": 0},
        {"first_section": another_first, "sections": 0}, {"first_section": another_first, "sections": ADDRESSES - 1},
        {"sections": 0}, {"sections": process.sections + rng.choice([-1, 1])})]


def entry_faults(rng, board, block):
    """In the entry point of the process with most sections, also with none of them executable."""
    number = max([KERNEL, *block.users], key=lambda number: len(block.sections_of(number)))
    own = {n: block.sections[n] for n in block.sections_of(number)}
    executable = [section.addresses for section in own.values() if section.flags & EXECUTABLE]
    others = [section.address for section in own.values() if not section.flags & EXECUTABLE]
    one, between = rng.choice(executable), (executable[0][-1] + executable[-1][0]) // 2
    entries = one.start - 1, one.start, one.stop - 1, one.stop, between, between + 1, rng.choice(others or [0])
    changed = [put(board, 16 + 16 * number, [entry]) for entry in entries]
    for n, section in own.items():
        board = put(board, block.sections_at + 16 * n + 12, [section.flags & ~EXECUTABLE])
    return [*changed, board, put(board, 16 + 16 * number, [one.start - 1])]


def section_faults(rng, board, block):
    n = rng.choice([0, rng.randrange(len(block.sections)), block.sections_of(rng.choice([KERNEL, *block.users]))[-1]])
    section, owner, flash = block.sections[n], block.owner(n), len(board.flash)
    allowed, nocopy, copied = block.process(owner).sections_range(owner), section.flags | NOCOPY, section.flags & ~NOCOPY
    return [put(board, block.sections_at + 16 * n, section._replace(**change)) for change in (
        {"size": 0, "flags": rng.choice([1, 8]), "flash_offset": 1, "address": 0}, {"flags": 15, "flash_offset": 1},
        {"flags": rng.choice([6, 7]), "flash_offset": 1}, {"flags": nocopy, "flash_offset": 1, "address": 0},
        {"flags": 8}, {"address": allowed.start}, {"address": allowed.start - 1, "size": ADDRESSES - 1},
        {"address": 0}, {"address": allowed.start - 1}, {"address": allowed.stop - section.size},
        {"address": allowed.stop - section.size + 1}, {"address": ADDRESSES - 1, "flash_offset": flash},
        *[{"address": block.sections[n - 1].pages[-1] * PAGE + further} for further in (rng.choice([0, 4095]), 4096)],
        {"flash_offset": flash - section.size}, {"flash_offset": flash - section.size + 1, "flags": copied},
        {"size": flash - section.flash_offset + rng.choice([0, 1]), "flags": copied},
        *[{"size": pages * PAGE, "flash_offset": 0, "flags": nocopy} for pages in (4080, 4096, 2**18)])]


def region_faults(rng, board, block):
    if not block.regions:
        return []
    i = rng.choice([0, len(block.regions) - 1, len(block.regions) - 1])
    region, length, further = block.regions[i], len(block.regions[i].addresses), rng.choice([0, PAGE, PAGE])
    others = ram, flash, before = ram_of(board), flash_of(board), block.regions[i - 1].addresses
    lowest, highest = min(ram.start, flash.start), up_to_page(max(ram.stop, flash.stop))
    left = 4096 - block.io_pages() + region.pages
    return [put(board, block.regions_at + 8 * i, region._replace(**change)) for change in (
        {"start": region.start + 1, "pages": 0}, {"start": region.start + rng.choice([1, 4095])}, {"pages": 0},
        {"start": before.start, "pages": ADDRESSES - 1}, {"start": ADDRESSES - length + further}, {"start": before.stop - PAGE},
        *[{"start": other.start - length + further} for other in others],
        *[{"start": up_to_page(other.stop) - further} for other in others],
        {"start": lowest, "pages": (highest - lowest) // PAGE}, {"pages": left}, {"pages": left + 1},
        *[{"start": up_to_page(other.stop), "pages": left + 1} for other in others])]


def draw_board(rng, turn):
    """Of three boards a good one, and two with the next faults in turn."""
    board = draw_good_board(rng)
    faults = [changed for give in (area_faults, word_faults, process_faults, entry_faults, section_faults, region_faults)
              for changed in give(rng, board, Block(board.block))]
    return faults[turn * 2 // 3 % len(faults)] if turn % 3 else board


def draw_walk(rng, boot):
    """A process and an address: at an edge of a section, of the stack or of the kernel's pages, or within."""
    block = boot.block
    number = rng.choice(list(boot.roots))
    section, kernel = block.sections[rng.choice(block.sections_of(number))], block.sections[0]
    stack = block.process(number).sections_range(number).stop
    at, length = rng.choice([(TRACKER_AT, len(boot.tracker)), (TRACKER_AT, boot.board.ram_pages), (LIST_AT, len(boot.list)),
                             (COPY_AT, len(boot.board.block))])
    edges = rng.choice([
        [section.address, section.addresses.stop, section.pages.start * PAGE, section.pages.stop * PAGE],
        [stack, stack + PAGE, STACK_END, kernel.address, kernel.addresses.stop, 0, rng.getrandbits(32)],
        [at, at + length, at + up_to_page(length)]])
    edge = rng.choice(edges) - rng.choice([0, 1])
    return number, rng.choice([edge, edge, rng.choice(section.addresses), at + rng.randrange(length)]) % ADDRESSES


# --------------------------------------------------------------------------------------------------------- THE COMPARISON

class Difference(Exception):
    def __init__(self, arguments, expected, printed):
        super().__init__("rigpollen %s\nexpected: %s\nprinted:  %s" % (" ".join(arguments), expected, printed))


def ask(command, arguments, status):
    """The lines that are printed, with this exit status."""
    result = subprocess.run([command, *arguments], stdout=subprocess.PIPE, stderr=subprocess.PIPE, text=True,
                            errors="replace", check=False)
    if result.returncode != status or result.stderr or not result.stdout.endswith("\n"):
        raise Difference(arguments, "status %d" % status,
                         "status %d, %s" % (result.returncode, (result.stdout + result.stderr)[:500]))
    return result.stdout[:-1].split("\n")


def expect(command, arguments, status, lines):
    printed = ask(command, arguments, status)
    for i in range(max(len(lines), len(printed))):
        if lines[i:i + 1] != printed[i:i + 1]:
            raise Difference(arguments, *("".join(text[i:i + 1]) or "no line %d" % (i + 1) for text in (lines, printed)))


def expect_dump(command, folder, board):
    """The block alone, on no RAM: what draws 2 to 5 has no records, and 6 is told after them."""
    arguments, refused = ["dump", folder + "/block"], refusal(Board(board.block, b"", 0, 0, 0))
    if refused.number in (2, 3, 4, 5):
        return expect(command, arguments, 1, refusal_lines(refused))
    printed = ask(command, arguments, int(refused.number == 6))
    block = Block(board.block)
    for name, records in (("process,", block.processes), ("section,", block.sections), ("region,", block.regions)):
        dumped = [line.split("#")[0].split(",")[1:] for line in printed if line.startswith(name)]
        if [tuple(int(word, 0) for word in words) for words in dumped] != records:
            raise Difference(arguments, records, dumped)
    if refused.number == 6 and printed[-2:] != refusal_lines(refused, "# "):
        raise Difference(arguments, refusal_lines(refused, "# "), printed[-2:])


def compare(command, folder, board, rng, met):
    Path(folder, "block").write_bytes(board.block)
    Path(folder, "flash").write_bytes(board.flash)
    arguments = [folder + "/block", folder + "/flash", "--ram", "0x%X:%d" % (board.ram_start, board.ram_pages),
                 "--flash-start", "0x%X" % board.flash_start]
    expect_dump(command, folder, board)
    refused = refusal(board)
    if refused:
        met["refusal %d: %s" % (refused.number, refused.cause)] += 1
        return expect(command, ["check", *arguments], 1, refusal_lines(refused))
    boot = Boot(board)
    met["board that boots"] += 1
    met.update("section copied " + (why_copied(board, boot.block, n) or "not") for n in range(len(boot.block.sections)))
    expect(command, ["check", *arguments], 0, check_lines(boot))
    expect(command, ["map", *arguments], 0, map_lines(boot, joined))
    expect(command, ["map", "--all", *arguments], 0, map_lines(boot, page_by_page))
    for number, address in [draw_walk(rng, boot) for _ in range(5)]:
        expect(command, ["walk", *arguments, str(number), "0x%X" % address], 0, walk_lines(boot, number, address))


def least_met(count):
    """How often each kind of case has to be met in so many boards."""
    sections = ["not", "for another offset modulo 4,096", "for the image's end", "for a byte beside it"]
    return {"board that boots": count // 4, **{"section copied " + why: count // 40 for why in sections},
            **{"refusal %d: %s" % (number, cause): count // 400 for number, causes in CAUSES.items() for cause in causes}}


def main(command, count=400):
    rng, met, folder = random.Random(2), Counter(), tempfile.mkdtemp()
    for turn in range(int(count)):
        try:
            compare(command, folder, draw_board(rng, turn), rng, met)
        except Difference as difference:
            return "command_reference: %s" % difference
    shutil.rmtree(folder)
    for case, least in least_met(int(count)).items():
        if met[case] < least:
            return "command_reference: %s: met %d times in %s boards, not %d times" % (case, met[case], count, least)
    causes = sum(case.startswith("refusal") for case in met)
    print("command_reference: %s boards agree: %d boot, %d causes met" % (count, met["board that boots"], causes))
    return 0


if __name__ == "__main__":
    if len(sys.argv) not in (2, 3):
        sys.exit("usage: python3 tests/command_reference.py RIGPOLLEN [COUNT]")
    sys.exit(main(*sys.argv[1:]))
