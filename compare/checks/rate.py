"""./rate: its figures held to the unrelated interpreter's, the files it writes, what is refused, and where its output goes."""
import math
import os
import random
import re
import shlex
import subprocess
import xml.etree.ElementTree

from harness import TOP, image, run
from hex import END, MOST_TEXT, record, records, text, written

RATE = TOP / "rate"
FIGURES = TOP / "compare/target/release/rate_figures"
SENDER = TOP / "samples/sender.bin"
COUNTDOWN = TOP / "samples/countdown.bin"
CLOCK = 8_000_000

KEYS = """length end end_address end_word cycles ticks stores bits first_cycle first_tick last_cycle last_tick least_gap_cycles least_gap_ticks
greatest_gap_cycles greatest_gap_ticks rate option choice claim""".split()

# ---- senders, assembled here: R1 is the link buffer at 0x100, R0 counts

LINK = ["--link", "100-104", "--clock", CLOCK]
PAUSE = 0xE1A00000
SWI = 0xEF000000


def mov(rd, value, turned=0):
    """MOV Rd, #value turned right by twice `turned`."""
    return 0xE3A00000 | rd << 12 | turned << 8 | value


def store(rd, offset=0, byte=False):
    """STR or STRB Rd, [R1, #offset]."""
    return 0xE5810000 | byte << 22 | rd << 12 | offset


def block(names, more=0):
    """STMIA R1, {names}; `more` are the bits of its other forms."""
    return 0xE8810000 | more | sum(1 << name for name in names)


def branch(at, to, condition=0xE):
    return condition << 28 | 0x0A000000 | (to - at - 8) // 4 & 0xFFFFFF


def sender(words, turns, pauses=0):
    """Frames of so many words without end, and the ticks from one to the next: a store takes 4, each turn of the wait but the last 1 and 4."""
    code = [mov(1, 1, 12)] + [store(2)] * words + [mov(0, turns)]
    code += [0xE2500001, branch(4 * len(code) + 4, 4 * len(code), 0x1)] + [PAUSE] * pauses
    code.append(branch(4 * len(code), 4))
    return image(code, 512), 4 * words + 1 + 5 * (turns - 1) + 2 + pauses + 4


def needed(words, period):
    """The least option that takes a frame's bits in its period."""
    return math.ceil(32 * words * CLOCK / (1000 * period))


def drawn(generator):
    """A program that stores in many ways around the link, and comes back to its first store."""
    code = [mov(1, 1, 12)]
    for _ in range(generator.randrange(4, 30)):
        offset = generator.randrange(0, 12)
        kinds = [
            store(generator.randrange(2, 15), offset),
            store(generator.randrange(2, 15), offset, byte=True),
            block(generator.sample(range(2, 16), generator.randrange(1, 7)), generator.choice([0, 0x01000000])),
            0xE591A000 | offset,  # LDR R10, [R1, #offset]
            0x05810000 | offset,  # STREQ, which is skipped
            0xE0030492,  # MUL R3, R2, R4
            PAUSE,
        ]
        code.append(generator.choice(kinds))
    code += [0xE3500001, branch(4 * len(code) + 4, 4)]  # CMP R0, #1, so that no EQ holds
    return image(code, 512)


# MOV R1, #0x100; STR; STRB above; a block across 0x10C; STR of the same value; SWI at 0x14.
ENDS = image([mov(1, 1, 12), store(2), store(2, 6, byte=True), block([2, 3, 4, 5], 0x01000000), store(2), SWI], 512)
ONE = image([mov(1, 1, 12), store(2), branch(8, 8)], 512)
NONE = image([mov(1, 1, 12), branch(4, 4)], 512)
PAST = image([mov(1, 1, 12), store(2), store(2), branch(12, 504)], 512)

# name, image, arguments: all are held to the interpreter's figures and status.
USES = [
    ("to its end", ENDS, ["--link", "100-10C", "--clock", CLOCK, "--options", "8000,64000,320000", "--end", "14"]),
    ("to its end by 0x and lower case", ENDS, ["--link", "0x100-0x10c", "--clock", CLOCK, "--options", "320000", "--end", "0x00000014"]),
    ("that runs out of memory", PAST, [*LINK, "--options", "9", "--end", "200"]),
    ("whose stop is due as the budget ends", ENDS, ["--link", "100-10C", "--clock", CLOCK, "--options", "64000", "--cycles", "14"]),
    ("cut in a block", ENDS, ["--link", "100-10C", "--clock", CLOCK, "--options", "64000", "--cycles", "9"]),
    ("a window that a block comes into", ENDS, ["--link", "108-200", "--clock", CLOCK, "--options", "320000", "--end", "14"]),
    ("a window that a block leaves", ENDS, ["--link", "0-10C", "--clock", CLOCK, "--options", "1,2,64000,320000", "--end", "14", "--buffer", "3"]),
    ("every option that there can be", sender(3, 40)[0], [*LINK, "--options", ",".join(str(it) for it in range(100, 132)), "--cycles", "10000"]),
    ("the least numbers", sender(3, 40)[0], ["--link", "100-104", "--clock", "1", "--options", "1", "--buffer", "1", "--cycles", "100"]),
    ("the greatest numbers", sender(3, 40)[0], ["--link", "0-200", "--clock", 10**9, "--options", "10000000", "--buffer", 2**20, "--cycles", "1000"]),
    ("a compiled sender", SENDER.read_bytes(), ["--link", "3F0-3F4", "--clock", CLOCK, "--options", "1000,12000,12200,13000", "--buffer", "8", "--cycles", "1000000"]),
    ("a compiled sender, no option", SENDER.read_bytes(), ["--link", "3F0-3F4", "--clock", CLOCK, "--options", "1000", "--cycles", "1000000"]),
    ("as long as it runs unless said", sender(17, 200)[0], [*LINK, "--options", "500,1000,5000", "--buffer", "17"]),
]


def plain(asked, options="100"):
    return [*LINK, "--options", options, *asked]


# name, the words in a folder where the images are, what standard error's one line must have
MISTAKES = [
    ("no --link", ["ends", "--clock", CLOCK, "--options", "1"], ["--link"]),
    ("no --clock", ["ends", "--link", "100-104", "--options", "1"], ["--clock"]),
    ("no --options", ["ends", *LINK], ["--options"]),
    ("no image", plain([]), ["image"]),
    ("an image without a name", ["", *plain([])], ["empty"]),
    ("two images", ["ends", *plain(["one"])], ["image"]),
    ("an option that is none", ["ends", *plain(["--what", "1"])], ["--what"]),
    ("--clock twice", ["ends", *plain(["--clock", "1"])], ["--clock"]),
    ("--link twice", ["ends", *plain(["--link", "100-104"])], ["--link"]),
    *[(f"{name} without its value", ["ends", *plain([name])], [name]) for name in ("--buffer", "--cycles", "--end", "--gaps", "--plot")],
    *[
        (f"{name} {value!r}", ["ends", *plain([name, value])], [name])
        for name, values in [
            ("--buffer", ["", "0", "1048577", "-1", "+1", "1.0", "0x1", "1 ", "99999999999999999999"]),
            ("--cycles", ["", "0", "500000001", "-1", "1e6", "18446744073709551617"]),
            ("--end", ["", "x", "0x", "0x0x1", "-4", "100000000", "14h"]),
        ]
        for value in values
    ],
    *[
        (f"--clock {value!r}", ["ends", "--link", "100-104", "--options", "1", "--clock", value], ["--clock"])
        for value in ("", "0", "1000000001", "8e6", "8,000,000", "-8", "8MHz")
    ],
    *[
        (f"--options {value!r}", ["ends", *LINK, "--options", value], ["--options"])
        for value in ("", "0", "0,1", "2,1", "1,1", "1,", ",1", "1,,2", "1;2", "2.5", "10000001", "a", ",".join(str(it) for it in range(1, 34)))
    ],
    *[
        (f"--link {value!r}", ["ends", "--link", value, "--clock", CLOCK, "--options", "1"], ["--link"])
        for value in ("", "100", "100-", "-104", "100-104-108", "100:104", "g-h", "+100-104", "100-1000000000", "100 -104")
    ],
    *[
        (f"a window {what}", ["ends", "--link", value, "--clock", CLOCK, "--options", "1"], [value.split("-")[1].lstrip("0") or "0"])
        for what, value in [
            ("outside memory", "100-204"),
            ("wholly outside memory", "400-404"),
            ("that ends off a word", "100-102"),
            ("that begins off a word", "101-104"),
            ("that is empty", "100-100"),
            ("that goes back", "104-100"),
        ]
    ],
    ("a stop", ["ends", *plain([])], ["22", "14"]),
    ("a stop elsewhere than at --end", ["ends", *plain(["--end", "18"])], ["22", "14"]),
    ("a stop before fewer than two stores", ["countdown", *plain([])[2:], "--link", "0-4"], ["22", "C"]),
    ("a program that leaves memory", ["past", *plain([])], ["21", "200"]),
    ("no store", ["none", *plain(["--cycles", "1000"])], ["two stores"]),
    ("one store", ["one", *plain(["--cycles", "1000"])], ["two stores"]),
    ("one store before its end", ["ends", *plain(["--cycles", "6"])], ["two stores"]),
    ("an ELF file", ["elf", *plain([])], ["ELF", "objcopy"]),
    ("no such file", ["missing", *plain([])], ["missing"]),
    ("a folder", ["folder", *plain([])], ["folder"]),
    ("an endless file", ["/dev/zero", *plain([])], ["65,536"]),
    *[(f"{length} bytes", [f"bytes{length}", *plain([])], ["16 to 65,536", "multiple of 4"]) for length in (0, 4, 12, 18, 65534, 65540)],
    ("HEX with a bad sum", ["hex41", *plain([])], ["41", "line 2"]),
    ("HEX with data beyond", ["hex42", *plain([])], ["42", "line 3"]),
    ("HEX without an end", ["hex43", *plain([])], ["43", "line 2"]),
    ("a raw image that begins with a colon", ["colon", *plain([])], ["41", "line 1"]),
    ("--gaps into a folder that is not there", ["ends", *plain(["--end", "14", "--gaps", "missing/gaps"], "320000")], ["missing/gaps"]),
    ("--plot into a folder that is not there", ["ends", *plain(["--end", "14", "--plot", "missing/plot.svg"], "320000")], ["missing/plot.svg"]),
    ("--gaps into a folder", ["ends", *plain(["--end", "14", "--gaps", "folder"], "320000")], ["folder"]),
    ("--plot into a folder", ["ends", *plain(["--end", "14", "--plot", "folder"], "320000")], ["folder"]),
    ("--gaps on a full disk", ["ends", *plain(["--end", "14", "--gaps", "/dev/full"], "320000")], ["/dev/full"]),
    ("--plot on a full disk", ["ends", *plain(["--end", "14", "--plot", "/dev/full"], "320000")], ["/dev/full"]),
]


def make(folder):
    """The images that MISTAKES names."""
    raw = records(ENDS)
    bad = raw[1][:-1] + ("0" if raw[1][-1] != "0" else "1")
    files = {
        "ends": ENDS,
        "one": ONE,
        "none": NONE,
        "past": PAST,
        "countdown": COUNTDOWN.read_bytes(),
        "elf": b"\x7fELF" + bytes(60),
        "hex41": text([raw[0], bad, END]),
        "hex42": text([raw[0], record(4, 0, b"\0\1"), raw[1], END]),
        "hex43": text(raw[:2]),
        "colon": b":" + bytes(63),
        **{f"bytes{length}": bytes(length) for length in (0, 4, 12, 18, 65534, 65540)},
    }
    for name, content in files.items():
        (folder / name).write_bytes(content)
    (folder / "folder").mkdir()


def ran(words, folder, files):
    """What came of a run, and the files that it made."""
    for file in files:
        (folder / file).unlink(missing_ok=True)
    ended = run(words, cwd=folder)
    return ended, [(folder / file).read_bytes() if (folder / file).exists() else None for file in files]


def agree(checks, name, folder, words, files=()):
    """./rate and the interpreter's program with the same words: the same status, output and files."""
    ended, made = ran([RATE, *words], folder, files)
    wanted, wanted_made = ran([FIGURES, *words], folder, files)
    same = (ended.returncode, ended.stdout, made) == (wanted.returncode, wanted.stdout, wanted_made)
    detail = f"status {ended.returncode}, {ended.stderr}{ended.stdout}\nnot {wanted.returncode}, {wanted.stderr}{wanted.stdout}"
    checks.check(f"rate: {name}", same and wanted.returncode != 2, detail)
    return ended


def check_form(checks, name, ended):
    """The keys in their order, and the status by the choice."""
    keys = [line.split("=")[0] for line in ended.stdout.splitlines()]
    known = [key for key in KEYS if key in keys]
    order = [key for at, key in enumerate(keys) if key != "option" or keys[at - 1] != "option"]
    left_out = set(KEYS) - set(keys)
    status = 1 if "\nchoice=none\n" in ended.stdout else 0
    holds = order == known and left_out <= {"end_address", "end_word"} and ended.returncode == status
    checks.check(f"rate: {name}: the keys in order", holds, f"status {ended.returncode}\n{ended.stdout}")


def check_sample(checks, folder):
    """Without arguments: the figures of a sample, which standard error names with all that was asked of it."""
    ended = run([RATE], cwd=folder)
    check_form(checks, "without arguments", ended)
    chosen = re.search(r"^choice=(\d+)$", ended.stdout, re.MULTILINE)
    checks.check("rate: without arguments an option is chosen", ended.returncode == 0 and chosen is not None, ended.stdout + ended.stderr)
    asked = re.search(r"(samples/\S+ --.*)", ended.stderr)
    if checks.check("rate: without arguments it says what is asked", asked is not None, ended.stderr):
        words = [word.strip("(),;") for word in shlex.split(asked.group(1))]
        told = run([FIGURES, *words], cwd=TOP)
        checks.check("rate: the sample's figures", (told.returncode, told.stdout) == (ended.returncode, ended.stdout), f"{ended.stdout}\nnot {told.stderr}{told.stdout}")


def check_uses(checks, folder):
    """Images raw and as HEX, which the first byte tells, whatever the name."""
    for at, (name, raw, words) in enumerate(USES):
        (folder / "raw.hex").write_bytes(raw)
        (folder / "text").write_bytes(written(raw))
        ended = agree(checks, name, folder, ["raw.hex", *words])
        check_form(checks, name, ended)
        # The longest memory has no word of the image behind it, and so no end there.
        if at % 2 == 0 and "--end" not in words:
            agree(checks, f"{name}, HEX", folder, ["text", *words])
    (folder / "text").write_bytes(written(ENDS).lower().replace(b"\n", b"\r\n"))
    agree(checks, "HEX in lower case with CR LF", folder, ["text", "--end", "14", "--link", "100-10C", "--clock", CLOCK, "--options", "320000"])


def check_periods(checks, folder):
    """The least option that takes the bits of a period, of senders whose period is known."""
    for words, turns, pauses in [(1, 3, 0), (2, 100, 5), (17, 200, 0), (17, 255, 7), (30, 2, 1)]:
        raw, period = sender(words, turns, pauses)
        (folder / "sender").write_bytes(raw)
        option = needed(words, period)
        options = ",".join(str(it) for it in sorted({1, option - 1, option, option + 1, 2 * option}))
        asked = ["sender", *LINK, "--options", options, "--buffer", words, "--cycles", 40 * period]
        ended = agree(checks, f"{words} words every {period} ticks", folder, asked)
        checks.check(f"rate: they take {option} kb/s", f"\nchoice={option}\n" in ended.stdout, ended.stdout)
        grows = re.search(rf"^option={option - 1} .*grows=(\w+)", ended.stdout, re.MULTILINE)
        checks.check(f"rate: and {option - 1} kb/s grows", grows is not None and grows.group(1) == "yes", ended.stdout)


def check_drawn(checks, folder):
    generator = random.Random(58)
    for number in range(24):
        (folder / "drawn").write_bytes(drawn(generator))
        start = 0x100 + 4 * generator.randrange(-1, 3)
        window = f"{start:X}-{start + 4 * generator.randrange(1, 9):x}"
        options = ",".join(str(it) for it in sorted(generator.sample(range(1, 60000), generator.randrange(1, 6))))
        asked = ["drawn", "--link", window, "--clock", CLOCK, "--options", options, "--buffer", generator.choice([1, 2, 5, 1000])]
        ended = run([FIGURES, *asked, "--cycles", "20000"], cwd=folder)
        if ended.returncode == 2:
            refused = run([RATE, *asked, "--cycles", "20000"], cwd=folder)
            checks.check(f"rate: drawn program {number} is refused", refused.returncode == 2 and not refused.stdout, refused.stdout + refused.stderr + ended.stderr)
        else:
            agree(checks, f"drawn program {number}", folder, [*asked, "--cycles", generator.randrange(2000, 20000), "--gaps", "gaps"], ["gaps"])


def check_gaps(checks, folder):
    (folder / "ends").write_bytes(ENDS)
    asked = ["ends", "--link", "100-10C", "--clock", CLOCK, "--options", "320000", "--end", "14", "--gaps", "gaps"]
    agree(checks, "a list of the stores", folder, asked, ["gaps"])
    # MOV in cycle 3; each store's write in its second cycle and at its fourth tick, a block's word by word.
    rows = ["5 8 00000100 32", "7 12 00000106 8", "9 16 00000104 32", "10 17 00000108 32", "14 23 00000100 32"]
    listed = (folder / "gaps").read_text()
    checks.check("rate: the list is the one worked out", listed == "".join(row + "\n" for row in rows), listed)
    (folder / "gaps").write_text("longer\n" * 100)
    run([RATE, *asked], cwd=folder)
    checks.check("rate: a list that was there is replaced", (folder / "gaps").read_text() == listed, (folder / "gaps").read_text())


def check_plot(checks, folder):
    """Pictures are well-formed SVG, stand for themselves, and name each option; the figures are the same with one."""
    cases = [(name, raw, words) for name, raw, words in USES if "--cycles" in words or "--end" in words]
    for name, raw, words in cases:
        (folder / "drawn").write_bytes(raw)
        bare = run([RATE, "drawn", *words], cwd=folder)
        ended = run([RATE, "drawn", *words, "--plot", "plot.svg", "--gaps", "gaps"], cwd=folder)
        checks.check(f"rate: {name}, the same figures with a picture", (ended.returncode, ended.stdout) == (bare.returncode, bare.stdout), ended.stderr + ended.stdout)
        try:
            root = xml.etree.ElementTree.parse(folder / "plot.svg").getroot()
        except (OSError, xml.etree.ElementTree.ParseError) as error:
            checks.check(f"rate: {name}, a picture", False, str(error))
            continue
        texts = " ".join("".join(it.itertext()) for it in root.iter() if it.tag.endswith("}text"))
        options = words[words.index("--options") + 1].split(",")
        numbers = re.findall(r"\d+", texts.replace(",", ""))
        missing = [option for option in options if option not in numbers] if len(options) <= 8 else []
        svg = root.tag == "{http://www.w3.org/2000/svg}svg"
        alone = not any(it.tag.endswith("}script") for it in root.iter()) and "href" not in (folder / "plot.svg").read_text()
        values = [value for it in root.iter() for value in it.attrib.values()]
        numbers_hold = not any(re.search(r"\b(nan|inf|NaN|-?inf(inity)?)\b", value) for value in values)
        checks.check(f"rate: {name}, a picture", svg and alone and numbers_hold and not missing, f"{root.tag}, alone {alone}, options that it does not name: {missing}")
        (folder / "plot.svg").unlink()


def check_ways(checks, folder):
    """Every way to name the script and the image."""
    (folder / "ends").write_bytes(ENDS)
    (folder / "an image").write_bytes(ENDS)
    (folder / "-dash").write_bytes(ENDS)
    (folder / "a link").symlink_to(RATE)
    (folder / "relative").symlink_to(os.path.relpath(RATE, folder.resolve()))
    words = ["--link", "100-10C", "--clock", CLOCK, "--options", "320000", "--end", "14"]
    wanted = run([FIGURES, "ends", *words], cwd=folder)
    ways = [
        ("options first", [RATE, *words, "ends"]),
        ("options around", [RATE, *words[:4], "ends", *words[4:]]),
        ("a symlink to the script", [folder / "a link", "ends", *words]),
        ("a relative symlink", [folder / "relative", "ends", *words]),
        ("by sh", ["sh", RATE, "ends", *words]),
        ("a name with a space", [RATE, "an image", *words]),
        ("a name with a dash", [RATE, "./-dash", *words]),
    ]
    for name, command in ways:
        ended = run(command, cwd=folder)
        checks.check(f"rate: {name}", (ended.returncode, ended.stdout, ended.stderr) == (0, wanted.stdout, ""), f"{ended.returncode}\n{ended.stdout}{ended.stderr}")
    for name, content in [("- < file", ENDS), ("- < HEX", written(ENDS))]:
        (folder / "given").write_bytes(content)
        told = run([FIGURES, "given", *words], cwd=folder)
        with open(folder / "given") as stdin:
            ended = run([RATE, "-", *words], stdin=stdin, cwd=folder)
        checks.check(f"rate: {name}", (ended.returncode, ended.stdout) == (0, told.stdout), ended.stdout + ended.stderr)
        with subprocess.Popen(["cat", folder / "given"], stdout=subprocess.PIPE) as cat:
            ended = run([RATE, "-", *words], stdin=cat.stdout, cwd=folder)
        checks.check(f"rate: {name} by a pipe", (ended.returncode, ended.stdout) == (0, told.stdout), ended.stdout + ended.stderr)


def check_mistakes(checks, folder):
    make(folder)
    for name, words, told in MISTAKES:
        ended = run([RATE, *words], cwd=folder)
        line = ended.stderr
        one = line.startswith("rate: ") and line.count("\n") == 1 and line.endswith("\n") and all(word in line for word in told)
        checks.check(f"rate: {name} says what is wrong", (ended.returncode, ended.stdout, one) == (2, "", True), f"status {ended.returncode}, wanted {told}\n{ended.stderr}{ended.stdout}")
    closed = folder / "closed"
    closed.write_bytes(ENDS)
    closed.chmod(0)
    if not os.access(closed, os.R_OK):
        ended = run([RATE, "closed", *plain([])], cwd=folder)
        checks.check("rate: a file that may not be read", (ended.returncode, ended.stdout) == (2, "") and "closed" in ended.stderr, ended.stderr)
    for name, given in [("an ELF file", "elf"), ("a folder", "folder"), ("an endless standard input", "/dev/zero")]:
        stdin = os.open(folder / given, os.O_RDONLY)
        ended = run([RATE, "-", *plain([])], stdin=stdin, cwd=folder)
        os.close(stdin)
        one = ended.stderr.count("\n") == 1
        checks.check(f"rate: - < {name}", (ended.returncode, ended.stdout, one) == (2, "", True), f"{ended.returncode}\n{ended.stderr}{ended.stdout}")
    ended = run(["sh", "-c", '"$0" "$@" <&-', RATE, "-", *plain([])], cwd=folder)
    checks.check("rate: no standard input at all", (ended.returncode, ended.stdout, ended.stderr.count("\n")) == (2, "", 1), ended.stderr)
    (folder / "long").write_bytes(text([*records(ENDS), END]))
    os.truncate(folder / "long", MOST_TEXT + 1)
    ended = run([RATE, "long", *plain([])], cwd=folder)
    checks.check("rate: a text that is too long", (ended.returncode, ended.stdout, ended.stderr.count("\n")) == (2, "", 1), ended.stderr)


def check_outputs(checks, folder):
    """Output that cannot be written is status 2 with one line, whatever the choice; no temporary file is left, however a run ends."""
    words = ["ends", "--link", "100-10C", "--clock", CLOCK, "--end", "14", "--options"]
    for name, asked in [("figures", [*words, "320000"]), ("figures without a choice", [*words, "1"]), ("--help", ["--help"])]:
        with open("/dev/full", "w") as full:
            ended = run([RATE, *asked], stdout=full, cwd=folder)
        checks.check(f"rate: {name} on a full disk", ended.returncode == 2 and ended.stderr.count("\n") == 1 and "written" in ended.stderr, f"{ended.returncode} {ended.stderr}")
        reader, writer = os.pipe()
        os.close(reader)
        ended = run([RATE, *asked], stdout=writer, cwd=folder)
        os.close(writer)
        checks.check(f"rate: {name} into a closed pipe", ended.returncode == 2 and ended.stderr.count("\n") == 1 and "written" in ended.stderr, f"{ended.returncode} {ended.stderr}")
        ended = run(["sh", "-c", '"$0" "$@" >&-', RATE, *asked], cwd=folder)
        checks.check(f"rate: {name} with no output at all", ended.returncode == 2 and ended.stderr.count("\n") == 1 and "written" in ended.stderr, f"{ended.returncode} {ended.stderr}")
    temporary = folder / "temporary"
    temporary.mkdir()
    for status, asked in [(0, [*words, "320000", "--gaps", "gaps", "--plot", "plot.svg"]), (1, [*words, "1"]), (2, [*words, "0"]), (2, ["none", *plain(["--cycles", "9"])])]:
        ended = run([RATE, *asked], cwd=folder, env={"TMPDIR": str(temporary)})
        left = os.listdir(temporary)
        checks.check(f"rate: status {status} leaves no temporary file", ended.returncode == status and not left, f"{ended.returncode}\n{ended.stderr}{left}")


def check(checks, folder):
    checks.part("./rate")
    built = ["cargo", "build", "--release", "--quiet", "--bin", "rate_figures"]
    checks.command("the interpreter's figures are built", built, cwd=TOP / "compare/interpreter", env={"CARGO_TARGET_DIR": str(TOP / "compare/target")})
    for option, begins in [("--help", "usage: ./rate"), ("-h", "usage: ./rate"), ("--version", (TOP / "VERSION").read_text())]:
        ended = run([RATE, option])
        checks.check(f"rate: {option}", ended.returncode == 0 and ended.stdout.startswith(begins) and not ended.stderr, ended.stdout + ended.stderr)
    for name, family in [("sample", check_sample), ("uses", check_uses), ("periods", check_periods), ("drawn", check_drawn), ("gaps", check_gaps), ("plot", check_plot), ("ways", check_ways), ("mistakes", check_mistakes), ("outputs", check_outputs)]:
        place = folder / name
        place.mkdir()
        if name == "outputs":
            make(place)
        family(checks, place)
