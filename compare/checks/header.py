"""The header: its names and calls against the source, what it says against the archive, and its number against another archive."""
import re
import shutil

from harness import ARCHIVE, TOP, run

ABI = int(re.search(r"^#define SLOT_ABI ([0-9]+)$", (TOP / "include/slot_core.h").read_text(), re.MULTILINE)[1])

# What compare/header reads.
READ = ["include", "examples/rust/src", "compare/driver/src", "compare/header", "compare/abi.txt", "crates", "VERSION", "CHANGES.md"]

TEXT, MEMORY = "const uint8_t *text, size_t text_length", "uint8_t *memory, size_t length"

# Wrong headers and sources that compare/header must refuse: the file, a text that stands there once, and another.
WRONG = [
    ("a place of the core", "include/slot_core.h", "SLOT_CORE_STOP = 31", "SLOT_CORE_STOP = 30"),
    ("a name of the core gone", "include/slot_core.h", "    SLOT_CORE_BASE = 26,", ""),
    ("the words of a core", "include/slot_core.h", "SLOT_CORE_WORDS = 39", "SLOT_CORE_WORDS = 38"),
    ("a place of the plain machine", "include/slot_core.h", "SLOT_PLAIN_STOP = 17", "SLOT_PLAIN_STOP = 18"),
    ("a place of a record", "include/slot_core.h", "SLOT_RECORD_RN = 8", "SLOT_RECORD_RN = 9"),
    ("a class", "include/slot_core.h", "SLOT_CLASS_BLOCK = 2", "SLOT_CLASS_BLOCK = 3"),
    ("a stop", "include/slot_core.h", "SLOT_STOP_OUTSIDE = 24", "SLOT_STOP_OUTSIDE = 25"),
    ("a refusal", "include/slot_core.h", "SLOT_TOO_MANY = 13", "SLOT_TOO_MANY = 12"),
    ("a refusal of a length", "include/slot_core.h", "SLOT_BAD_LENGTH = 1,", "SLOT_BAD_LENGTH = 6,"),
    ("a refusal of a text", "include/slot_core.h", "SLOT_HEX_UNSOUND = 41", "SLOT_HEX_UNSOUND = 42"),
    ("a refusal of a text gone", "include/slot_core.h", "    SLOT_HEX_OUTSIDE = 42,", ""),
    ("a refusal of a window", "include/slot_core.h", "SLOT_BAD_WINDOW = 58", "SLOT_BAD_WINDOW = 57"),
    ("a place of a summary", "include/slot_core.h", "SLOT_RATE_LAST_TICK = 16", "SLOT_RATE_LAST_TICK = 18"),
    ("a name of a summary gone", "include/slot_core.h", "    SLOT_RATE_FIRST_BITS_HIGH = 5,", ""),
    ("the words of a summary", "include/slot_core.h", "SLOT_RATE = 22", "SLOT_RATE = 21"),
    ("the bytes of a line", "include/slot_core.h", "SLOT_HEX_LINE = 44", "SLOT_HEX_LINE = 43"),
    ("an operation, which only the kept layout has", "include/slot_core.h", "SLOT_OPERATION_BIC = 14", "SLOT_OPERATION_BIC = 13"),
    ("a parameter less", "include/slot_core.h", "size_t length, uint64_t budget, uint64_t *used);", "uint64_t budget, uint64_t *used);"),
    ("a narrower parameter", "include/slot_core.h", "uint64_t count, uint64_t *used", "uint32_t count, uint64_t *used"),
    ("a parameter that is not const", "include/slot_core.h", "slot_word_write(const uint32_t *record", "slot_word_write(uint32_t *record"),
    ("a core that a store's call may change", "include/slot_core.h", "slot_core_store(const uint32_t *core", "slot_core_store(uint32_t *core"),
    ("a window without its end", "include/slot_core.h", "uint32_t to, uint32_t *summary);", "uint32_t *summary);"),
    ("text and memory exchanged", "include/slot_core.h", f"{TEXT}, {MEMORY}", f"{MEMORY}, {TEXT}"),
    ("a line's number behind its bytes", "include/slot_core.h", "uint32_t line, uint8_t *out", "uint8_t *out, uint32_t line"),
    ("a call gone", "include/slot_core.h", "void slot_word_read(uint32_t word, uint32_t *record);", ""),
    ("SLOT_ABI alone", "include/slot_core.h", f"#define SLOT_ABI {ABI}\n", f"#define SLOT_ABI {ABI + 1}\n"),
    ("the version", "include/slot_core.h", '#define SLOT_VERSION "', '#define SLOT_VERSION "1'),
    ("a place of the layout", "crates/core_arrays/specs/Places.antt", "core_place core_stop = 31", "core_place core_stop = 30"),
    ("a place of a summary in the layout", "crates/summary_arrays/specs/Places.antt", "rate_place rate_last_tick = 16", "rate_place rate_last_tick = 18"),
    ("a refusal of a window in the source", "crates/link/specs/Window.antt", "window_refused = 58\n", "window_refused = 57\n"),
    ("a summary that is not written in the source", "crates/slot_rated/src/lib.rt", "    to: u32,\n    summary: &mut SummaryArray", "    to: u32,\n    summary: &SummaryArray"),
    ("a parameter of the source", "crates/slot/src/core_calls.rt", "    budget: u64,", "    budget: u32,"),
    ("text and memory exchanged in the source", "crates/slot/src/hex_calls.rt", "text: &[u8], memory: &mut [u8]", "memory: &mut [u8], text: &[u8]"),
    ("the bytes of a line in the source", "crates/slot/src/hex_calls.rt", "out: &mut [u8; 44]", "out: &mut [u8; 43]"),
    ("bytes in the source that have no name", "crates/slot/src/hex_calls.rt", "out: &mut [u8; 44]", "to: &mut [u8; 44]"),
    ("a call more in the source", "crates/slot/src/abi.rt", f"fn slot_abi_{ABI}()", f"fn slot_abi_{ABI + 1}()"),
    ("the source's number", "crates/slot/specs/Abi.antt", f"abi = {ABI}\n", f"abi = {ABI + 1}\n"),
    ("a stop more in the source", "crates/stops/specs/Numbers.antt", "no_word = 21", "no_word = 21\nanother = 26"),
    ("a refusal of a text in the source", "crates/intel_hex/specs/Numbers.antt", "unsound = 41\n", "unsound = 42\n"),
    ("a refusal of a text more in the source", "crates/intel_hex/specs/Numbers.antt", "no_end = 43\n", "no_end = 43\nanother = 44\n"),
    ("a place of the Rust example", "examples/rust/src/slot.rs", "CORE_DATUM: usize = 25", "CORE_DATUM: usize = 24"),
    ("a parameter of the Rust example", "examples/rust/src/slot.rs", "budget: u64", "budget: u32"),
    ("an array of the comparison", "compare/driver/src/archive.rs", "PlainArray = [u32; 19]", "PlainArray = [u32; 20]"),
    ("a line's bytes in the comparison", "compare/driver/src/hex_archive.rs", "HEX_LINE: usize = 44", "HEX_LINE: usize = 43"),
    ("a parameter of the comparison", "compare/driver/src/hex_archive.rs", "text: *const u8", "text: *mut u8"),
    ("a parameter of the comparison's watched run", "compare/driver/src/rate_archive.rs", "summary: *mut u32", "summary: *const u32"),
    ("a type in the comparison that C has not", "compare/driver/src/hex_archive.rs", "text: *const u8", "text: &[u8]"),
    ("a declaration of the comparison that does not read", "compare/driver/src/hex_archive.rs", "fn slot_hex_read(", "fn slot_hex_read<'a>("),
]


def check_wrong(checks, folder):
    copy = folder / "tree"
    for path in READ:
        source = TOP / path
        (copy / path).parent.mkdir(parents=True, exist_ok=True)
        if source.is_dir():
            shutil.copytree(source, copy / path, ignore=shutil.ignore_patterns("proofs", "must-fail", "out", "target"))
        else:
            shutil.copy(source, copy / path)
    right = run([copy / "compare/header"])
    checks.check("compare/header passes a copy of the tree", right.returncode == 0, right.stdout + right.stderr)
    for name, path, old, new in WRONG:
        kept = (copy / path).read_text()
        once = kept.count(old) == 1
        (copy / path).write_text(kept.replace(old, new))
        ended = run([copy / "compare/header"])
        (copy / path).write_text(kept)
        told = len(ended.stdout.splitlines()) > 1
        checks.check(f"compare/header refuses another: {name}", once and ended.returncode == 1 and told, ended.stdout + ended.stderr)


def shown_in(title):
    """What a section of the header shows, indented, without the places where its lines begin."""
    section = (TOP / "include/slot_core.h").read_text().split(f"/* ---- {title}\n")[-1].split("*/")[0]
    return [re.sub(r"^ \*\s*", "", block, flags=re.MULTILINE) for block in re.findall(r"(?:^ \*     .*\n)+", section, re.MULTILINE)]


def check_lines(checks):
    """What the sections on stores and on Intel HEX show, their C and their records, is tried as it stands there, but for where a line begins."""
    tried = re.sub(r"^\s+", "", (TOP / "compare/checks/header.c").read_text(), flags=re.MULTILINE)
    for title, blocks, records in [("stores and the rate", 3, 0), ("images as Intel HEX", 3, 3)]:
        shown = shown_in(title)
        found = [line.split()[0] for block in shown for line in block.splitlines() if line.startswith(":")]
        missing = [block for block in shown if ";" in block and block not in tried] + [record for record in found if record not in tried]
        all_there = len(shown) == blocks and len(found) == records
        checks.check(f"what the header shows of {title} is tried", all_there and not missing, f"{len(shown)} parts, {len(found)} records\n" + "\n".join(missing))


def check_archive(checks):
    """The archive has the calls of compare/abi.txt and no others, and nothing in it is kept between calls."""
    listed = run(["nm", ARCHIVE])
    symbols = [line.split()[-2:] for line in listed.stdout.splitlines() if len(line.split()) >= 2]
    calls = sorted(name for kind, name in symbols if kind == "T")
    declared = sorted(line.split("(")[0].split()[-1] for line in (TOP / "compare/abi.txt").read_text().splitlines() if "(" in line)
    checks.check("the archive has the header's calls and no others", calls == declared, f"{calls}\n{declared}")
    kept = [name for kind, name in symbols if kind in "BbDdCGgSs"]
    checks.check("the archive keeps no data of its own", listed.returncode == 0 and not kept, str(kept))
    wanted = [name for kind, name in symbols if kind == "U" and name not in ("memcpy", "memset", "memmove")]
    checks.check("the archive needs nothing but the copying of memory", not wanted, str(wanted))


def check_abi(checks, folder):
    """A header of another number does not link with this archive, whatever the linker drops."""
    other = folder / "other"
    other.mkdir()
    text = (TOP / "include/slot_core.h").read_text()
    (other / "slot_core.h").write_text(text.replace(f"#define SLOT_ABI {ABI}\n", f"#define SLOT_ABI {ABI + 1}\n").replace(f"slot_abi_{ABI}", f"slot_abi_{ABI + 1}"))
    source = folder / "start.c"
    source.write_text('#include "slot_core.h"\nint main(void) { uint32_t core[SLOT_CORE_WORDS], r[15] = {0}; uint8_t m[16] = {0};\n'
                      "    return (int)slot_core_start(core, r, 0, 0, m, 16); }\n")
    for name, options in [("", []), (", sections dropped", ["-O2", "-ffunction-sections", "-fdata-sections", "-Wl,--gc-sections"]), (", linked as a whole", ["-O2", "-flto"])]:
        for include, links in [(TOP / "include", True), (other, False)]:
            ended = run(["gcc", "-std=c11", *options, "-I", include, source, ARCHIVE, "-o", folder / "start"])
            told = f"slot_abi_{ABI + 1}" in ended.stderr
            holds = ended.returncode == 0 if links else ended.returncode != 0 and told
            checks.check(f"{'the header links' if links else 'a header of the next SLOT_ABI does not link'}{name}", holds, ended.stderr)


def check(checks, folder):
    checks.part("the header against the source")
    checks.command("compare/header", [TOP / "compare/header"])
    usage = run([TOP / "compare/header", "foo"])
    checks.check("compare/header foo: usage, status 2", usage.returncode == 2 and "usage" in usage.stderr, usage.stderr)
    check_wrong(checks, folder)
    check_lines(checks)
    checks.part("the archive")
    check_archive(checks)
    check_abi(checks, folder)
