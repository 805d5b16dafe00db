"""The examples and the header's test, as C11 and C++17, under the sanitizers; the Rust example beside them."""
import shutil

from harness import ARCHIVE, TOP, image, run

WARNINGS = ["-Wall", "-Wextra", "-Wpedantic", "-Wconversion", "-Wshadow", "-Werror"]
SANITIZED = ["-g", "-fsanitize=address,undefined", "-fno-sanitize-recover=all"]

SAMPLE = """\
cycle 7: 4 bytes at 00000080, 00000001
cycle 14: 4 bytes at 00000080, 00000002, 7 after the one before
cycle 21: 4 bytes at 00000080, 00000003, 7 after the one before
cycle 28: 4 bytes at 00000080, 00000004, 7 after the one before
cycle 35: 4 bytes at 00000080, 00000005, 7 after the one before
answer 22 (a SWI, or an instruction that this core has not) at 00000018 after 37 cycles and 22 instructions (52 ticks); stores into 00000080-00000084: 5
"""

# MOV R0, #100; MOV R1, #41; STR R1, [R0] twice; STRB R1, [R0, #1]; STMIA R0!, {R1, R2}; SWI. By the table of durations the stores are in
# cycles 6, 8, 10, 12 and 13; by that of ticks 9 of the 13 cycles, the start's and two of each store, are non-sequential.
STORES = image([0xE3A00C01, 0xE3A01041, 0xE5801000, 0xE5801000, 0xE5C01001, 0xE8A00006, 0xEF000000], 512)
STORES_SEEN = """\
cycle 6: 4 bytes at 00000100, 00000041
cycle 8: 4 bytes at 00000100, 00000041, 2 after the one before
cycle 10: 1 byte at 00000101, 41, 2 after the one before
cycle 12: 4 bytes at 00000100, 00000041, 2 after the one before
cycle 13: 4 bytes at 00000104, 00000000, 1 after the one before
answer 22 (a SWI, or an instruction that this core has not) at 00000018 after 13 cycles and 6 instructions (22 ticks); stores into 00000100-00000108: 5
"""
LAST_SEEN = """\
cycle 13: 4 bytes at 00000104, 00000000
answer 22 (a SWI, or an instruction that this core has not) at 00000018 after 13 cycles and 6 instructions (22 ticks); stores into 00000104-00000108: 1
"""
EIGHT_SEEN = """\
cycle 6: 4 bytes at 00000100, 00000041
cycle 8: 4 bytes at 00000100, 00000041, 2 after the one before
answer 0 (the cycles asked for are spent) after 8 cycles and 4 instructions (13 ticks); stores into 00000100-00000108: 2
"""

# samples/sender.c, whose data are the numbers of xorshift32 from 1: the first frame is gathered in 70 cycles, and a word of it takes 10.
SENDER_SEEN = """\
cycle 75: 4 bytes at 000003F0, 7E7E7E7E
cycle 81: 4 bytes at 000003F0, 00042021, 6 after the one before
cycle 91: 4 bytes at 000003F0, 04080601, 10 after the one before
answer 0 (the cycles asked for are spent) after 100 cycles and 59 instructions (134 ticks); stores into 000003F0-000003F4: 3
"""

# name, arguments (a str that begins with @ is an image's file), status, output, what standard error must have
USES = [
    ("the sample", [], 0, SAMPLE, ""),
    ("same values, a byte and a block", ["@stores", "100-108"], 0, STORES_SEEN, ""),
    ("a window of one word", ["@stores", "104-108"], 0, LAST_SEEN, ""),
    ("as long as asked", ["@stores", "100-108", "8"], 0, EIGHT_SEEN, ""),
    ("a compiled sender", [str(TOP / "samples/sender.bin"), "3F0-3F4", "100"], 0, SENDER_SEEN, ""),
    ("lower case", ["@stores", "fc-100", "0"], 0, "answer 0 (the cycles asked for are spent) after 0 cycles and 0 instructions (0 ticks); stores into 000000FC-00000100: 0\n", ""),
    ("no window", ["@stores"], 2, "", "needs a window"),
    ("too many arguments", ["@stores", "0-4", "1", "1"], 2, "", "too many"),
    ("a window that is none", ["@stores", "100"], 2, "", "'100'"),
    ("a window off a word", ["@stores", "100-102"], 2, "", "'100-102'"),
    ("an empty window", ["@stores", "100-100"], 2, "", "'100-100'"),
    ("a window beyond memory", ["@stores", "100-204"], 2, "", "204"),
    ("a window with a sign", ["@stores", "+0-4"], 2, "", "'+0-4'"),
    ("cycles that are no number", ["@stores", "0-4", "1e6"], 2, "", "'1e6'"),
    ("no cycles", ["@stores", "0-4", ""], 2, "", "''"),
    ("cycles past 2^40", ["@stores", "0-4", "1099511627777"], 2, "", "1099511627776"),
    ("no such file", ["@missing", "0-4"], 2, "", "missing"),
    ("a folder", ["@.", "0-4"], 2, "", "directory"),
    ("an ELF file", ["@elf", "0-4"], 2, "", "objcopy"),
    ("a short image", ["@short", "0-4"], 1, "", "refused with 1: an image has 16 to 65536 bytes"),
    ("an odd image", ["@odd", "0-4"], 1, "", "refused with 1"),
    ("a long image", ["@long", "0-4"], 1, "", "refused with 1"),
    ("an endless file", ["/dev/zero", "0-4"], 1, "", "refused with 1"),
]


def compilers():
    """Each with its standard, and the language where the file's name does not say it."""
    for c, cpp in [("gcc", "g++"), ("clang", "clang++")]:
        if shutil.which(c):
            yield f"{c}, C11", [c, "-std=c11"]
        if shutil.which(cpp):
            yield f"{cpp}, C++17", [cpp, "-std=c++17", "-x", "c++"]


def sanitizes(words, folder):
    """Whether a compiler has the sanitizers' libraries."""
    (folder / "empty.c").write_text("int main(void) { return 0; }\n")
    return run([*words, *SANITIZED, folder / "empty.c", "-o", folder / "empty"]).returncode == 0


def built(checks, name, words, source, out):
    ended = run([*words, *WARNINGS, "-O1", "-I", TOP / "include", TOP / source, "-x", "none", ARCHIVE, "-o", out])
    return checks.check(f"{source} builds without a warning: {name}", ended.returncode == 0, ended.stderr)


def check_uses(checks, name, program, folder):
    for use, arguments, status, output, told in USES:
        words = [str(folder / word[1:]) if word.startswith("@") else word for word in arguments]
        ended = run([program, *words])
        holds = ended.returncode == status and ended.stdout == output and told in ended.stderr and bool(ended.stderr) == bool(told)
        checks.check(f"{name}: {use}", holds, f"status {ended.returncode}\n{ended.stdout}{ended.stderr}")
    for words in ([], ["--help"]):
        with open("/dev/full", "w") as full:
            ended = run([program, *words], stdout=full)
        checks.check(f"{name}: {' '.join(words) or 'the sample'} on a full disk", ended.returncode == 2 and "could not be written" in ended.stderr, ended.stderr)
    ended = run([program, "--help"])
    checks.check(f"{name}: --help", ended.returncode == 0 and ended.stdout.startswith("usage: embed"), ended.stdout + ended.stderr)


def check_c(checks, folder):
    for name, words in compilers():
        for more, options in [("", []), (", sanitized", SANITIZED)]:
            if options and not sanitizes(words, folder):
                print(f"      {name} has no sanitizers here")
                continue
            if built(checks, name + more, words + options, "examples/embed.c", folder / "embed"):
                check_uses(checks, f"embed ({name}{more})", folder / "embed", folder)
            if built(checks, name + more, words + options, "compare/checks/header.c", folder / "header"):
                ended = run([folder / "header"])
                last = (ended.stdout.splitlines() or ["nothing"])[-1]
                checks.check(f"what the header says ({name}{more}): {last}", ended.returncode == 0, ended.stdout + ended.stderr)


def check_rust(checks, folder):
    options = {"CARGO_TARGET_DIR": str(TOP / "compare/target/rust-example"), "RUSTFLAGS": "-D warnings", "SLOT_ARCHIVE": str(ARCHIVE)}
    cargo = ["cargo", "build", "--release", "--quiet", "--manifest-path", TOP / "examples/rust/Cargo.toml"]
    if checks.command("examples/rust builds without a warning", cargo, env=options):
        check_uses(checks, "embed (Rust)", TOP / "compare/target/rust-example/release/embed", folder)
    ended = run(cargo, env={**options, "SLOT_ARCHIVE": str(folder / "missing")})
    told = ended.stdout + ended.stderr
    checks.check("examples/rust without an archive says what to do", ended.returncode != 0 and "scripts/archive" in told, told)


def check(checks, folder):
    (folder / "stores").write_bytes(STORES)
    (folder / "elf").write_bytes(b"\x7fELF" + bytes(60))
    (folder / "short").write_bytes(bytes(12))
    (folder / "odd").write_bytes(bytes(18))
    (folder / "long").write_bytes(bytes(65540))
    checks.part("the examples in C and C++")
    check_c(checks, folder)
    checks.part("the example in Rust")
    check_rust(checks, folder)
