"""./report on good and bad files, raw and Intel HEX, and where its output goes."""
import os
import subprocess

from harness import TOP, image, run
from hex import END, MOST_TEXT, REFUSED_TEXTS, SIGNALS, record, records, refusal, stopped, text, written

COUNTDOWN = "answer=22\npc=00000014\ncycles=21\nticks=26\nretired=11\nflags=6\n" + "".join(f"r{k}=00000000\n" for k in range(15))
REPORT = TOP / "report"
SAMPLE = TOP / "samples/countdown.bin"

# Images of 16 bytes that come to another end in 65,536: their words, and each line that differs, of the raw image and of Intel HEX.
LONGER = [
    # Four MOV R0, R0. Behind them is no word, or words of zeros, which have the condition EQ: a cycle each, until the budget ends.
    (
        "past its end",
        [0xE1A00000, 0xE1A00000, 0xE1A00000, 0xE1A00000],
        {"answer": ("21", "0"), "pc": ("00000018", "00000100"), "cycles": ("6", "64"), "ticks": ("7", "65"), "retired": ("4", "62")},
    ),
    # MOV R0, #1; LDR R0, [R1, #256]; SWI. The load is the stop, or brings a 0 in three cycles of four ticks, and the SWI is it.
    (
        "that loads from behind its end",
        [0xE3A00001, 0xE5910100, 0xEF000000],
        {"answer": ("24", "22"), "pc": ("0000000C", "00000010"), "cycles": ("3", "6"), "ticks": ("4", "8"), "retired": ("1", "2"), "r0": ("00000001", "00000000")},
    ),
]

# MOV R1, #65536; LDR R0, [R1, #-4] or LDR R0, [R1]; SWI: the last word of the longest memory, and the one behind it.
ENDS = [
    ("the last word", [0xE3A01801, 0xE5110004, 0xEF000000], ["answer=22", "r0=12345678"]),
    ("a word behind the last", [0xE3A01801, 0xE5910000, 0xEF000000], ["answer=24", "r0=00000000"]),
]


def check_reports(checks, folder):
    """Every way to give the sample, and an image for each end of the lengths."""
    link = folder / "a link"
    link.symlink_to(REPORT)
    relative = folder / "relative"
    relative.symlink_to(os.path.relpath(REPORT, folder.resolve()))
    spaced = folder / "an image"
    spaced.write_bytes(SAMPLE.read_bytes())
    (folder / "-dash").write_bytes(SAMPLE.read_bytes())
    ways = [
        ("an image", [REPORT, SAMPLE], {}),
        ("from another folder", [REPORT, SAMPLE], {"cwd": folder}),
        ("a symlink to the script", [link, SAMPLE], {}),
        ("a relative symlink, from another folder", [relative, SAMPLE], {"cwd": "/"}),
        ("a name with a space", [REPORT, spaced], {}),
        ("a name with a dash", [REPORT, "./-dash"], {"cwd": folder}),
        ("by sh", ["sh", REPORT, SAMPLE], {}),
    ]
    for name, words, options in ways:
        ended = run(words, **options)
        checks.check(f"report: {name}", (ended.returncode, ended.stdout, ended.stderr) == (0, COUNTDOWN, ""), f"{ended.returncode}\n{ended.stdout}{ended.stderr}")
    for name, words in [("< file", [REPORT]), ("- < file", [REPORT, "-"])]:
        with open(SAMPLE) as stdin:
            ended = run(words, stdin=stdin)
        checks.check(f"report: {name}", (ended.returncode, ended.stdout, ended.stderr) == (0, COUNTDOWN, ""), ended.stdout + ended.stderr)
    for name, words in [("a pipe with -", [REPORT, "-"]), ("a pipe as a file", [REPORT, "/dev/stdin"])]:
        with subprocess.Popen(["cat", SAMPLE], stdout=subprocess.PIPE) as cat:
            ended = run(words, stdin=cat.stdout)
        checks.check(f"report: {name}", (ended.returncode, ended.stdout) == (0, COUNTDOWN), ended.stdout + ended.stderr)
    ended = run([REPORT])
    told = "the sample samples/countdown.bin" in ended.stderr
    checks.check("report: no image is the sample, and says so", (ended.returncode, ended.stdout, told) == (0, COUNTDOWN, True), ended.stdout + ended.stderr)
    for length in (16, 65536):
        (folder / "zeros").write_bytes(bytes(length))
        ended = run([REPORT, folder / "zeros"])
        first = ended.stdout.splitlines()[:1]
        # A word of zeros has the condition EQ: it is skipped, a cycle each, until the budget or the memory ends.
        checks.check(f"report: {length} bytes", (ended.returncode, first) == (0, ["answer=21" if length == 16 else "answer=0"]), ended.stdout + ended.stderr)


def check_refusals(checks, folder):
    for length in (0, 4, 12, 15, 17, 18, 65532 + 2, 65537, 65540, 200000):
        (folder / "refused").write_bytes(bytes(length))
        ended = run([REPORT, folder / "refused"])
        told = "refused with 1" in ended.stderr and "16 to 65,536 bytes" in ended.stderr and f"has {length}\n" in ended.stderr
        checks.check(f"report: {length} bytes are refused", (ended.returncode, ended.stdout, told) == (1, "answer=1\n", True), ended.stdout + ended.stderr)
    ended = run([REPORT, "/dev/zero"])
    checks.check("report: an endless file is refused", (ended.returncode, ended.stdout) == (1, "answer=1\n"), ended.stdout + ended.stderr)


def check_mistakes(checks, folder):
    elf = folder / "elf"
    elf.write_bytes(b"\x7fELF" + bytes(60))
    mistakes = [
        ("''", [""], "empty"),
        ("two images", [SAMPLE, SAMPLE], "one image"),
        ("an option that is none", ["--cycles"], "no option --cycles"),
        ("no such file", [folder / "missing"], "no such file"),
        ("a folder", [folder], "folder"),
        ("an ELF file", [elf], "objcopy"),
    ]
    for name, words, told in mistakes:
        ended = run([REPORT, *words])
        one = ended.stderr.count("\n") == 1 and told in ended.stderr
        checks.check(f"report: {name} says what is wrong", (ended.returncode, ended.stdout, one) == (2, "", True), f"{ended.returncode}\n{ended.stdout}{ended.stderr}")
    with open(elf) as stdin:
        ended = run([REPORT], stdin=stdin)
    checks.check("report: < an ELF file", ended.returncode == 2 and "objcopy" in ended.stderr, ended.stdout + ended.stderr)
    with open(elf) as stdin:
        ended = run([REPORT, "-"], stdin=stdin)
    checks.check("report: - takes whatever comes", ended.returncode == 0 and ended.stdout.startswith("answer="), ended.stdout + ended.stderr)
    closed = folder / "closed"
    closed.write_bytes(bytes(16))
    closed.chmod(0)
    if not os.access(closed, os.R_OK):
        ended = run([REPORT, closed])
        checks.check("report: a file that may not be read", ended.returncode == 2 and "permission" in ended.stderr, ended.stderr)


def check_names(checks, folder):
    """Intel HEX is what the name says, whatever the file holds; standard input is raw."""
    raw, given = SAMPLE.read_bytes(), written(SAMPLE.read_bytes())
    (folder / "folder.hex").mkdir()
    hexes = ("x.hex", "x.ihx", "X.HEX", "X.IHX", "x.Hex", ".hex", "an image.hex", "-x.bin.ihx")
    raws = ("x.bin", "hex", "x-hex", "x.hex.bin", "x.hexx", "x.ihex", "folder.hex/x")
    for name in (*hexes, *raws):
        (folder / name).write_bytes(given if name in hexes else raw)
        ended = run([REPORT, f"./{name}"], cwd=folder)
        told = "Intel HEX" if name in hexes else "raw"
        checks.check(f"report: {name} is {told}", (ended.returncode, ended.stdout, ended.stderr) == (0, COUNTDOWN, ""), ended.stdout + ended.stderr)
    (folder / "x.txt").write_bytes(given)
    text_run = run([REPORT, folder / "x.txt"])
    holds = text_run.returncode == 0 and text_run.stdout.startswith("answer=") and text_run.stdout != COUNTDOWN
    checks.check("report: Intel HEX as x.txt is run as it is", holds, text_run.stdout + text_run.stderr)
    for command in ('"$0" <x.hex', '"$0" - <x.hex', 'cat x.hex | "$0" -', 'cat x.hex | "$0" /dev/stdin'):
        ended = run(["sh", "-c", command, REPORT], cwd=folder)
        name = command.replace('"$0"', "report")
        checks.check(f"report: so it is by {name}", (ended.returncode, ended.stdout, ended.stderr) == (0, text_run.stdout, ""), ended.stdout + ended.stderr)


def check_longer(checks, folder):
    """Intel HEX is read into 65,536 bytes, so that an image may come further than as a raw one."""
    for name, words, lines in LONGER:
        for file, given in [("short", image(words, 16)), ("long", image(words, 65536)), ("short.hex", written(image(words, 16)))]:
            (folder / file).write_bytes(given)
        short, long, ended = [run([REPORT, folder / file]) for file in ("short", "long", "short.hex")]
        pairs = [(one.split("="), other.split("=")) for one, other in zip(short.stdout.splitlines(), ended.stdout.splitlines()) if one != other]
        differ = {one[0]: (one[1], other[1]) for one, other in pairs}
        statuses = (short.returncode, long.returncode, ended.returncode)
        checks.check(f"report: an image {name}, raw and as Intel HEX", (statuses, differ) == ((0, 0, 0), lines), short.stdout + ended.stdout + ended.stderr)
        checks.check(f"report: an image {name}, of 65,536 bytes and as Intel HEX", ended.stdout == long.stdout and not ended.stderr, long.stdout + ended.stdout)
    for name, words, told in ENDS:
        (folder / "end.hex").write_bytes(text([*records(image(words)), record(0, 65532, image([0x12345678])), END]))
        ended = run([REPORT, folder / "end.hex"])
        holds = ended.returncode == 0 and set(told) <= set(ended.stdout.splitlines())
        checks.check(f"report: Intel HEX that loads {name}", holds, ended.stdout + ended.stderr)


def check_hex_refusals(checks, folder):
    """Intel HEX that is refused, or not read at all."""
    refused = folder / "refused.hex"
    for name, options, given, number, line in REFUSED_TEXTS:
        if options:
            continue
        refused.write_bytes(given)
        ended = run([REPORT, refused])
        holds = (ended.returncode, ended.stdout, ended.stderr) == (1, "", f"report: {refused}, Intel HEX by its name: {refusal(number, line)}")
        checks.check(f"report: {name} is refused with {number}", holds, f"{ended.returncode}\n{ended.stdout}{ended.stderr}")
    (folder / "elf.hex").write_bytes(b"\x7fELF" + bytes(60))
    (folder / "endless.hex").symlink_to("/dev/zero")
    (folder / "long.hex").write_bytes(text([END]))
    os.truncate(folder / "long.hex", MOST_TEXT + 1)
    mistakes = [
        ("missing.hex", "no such file"),
        ("folder.hex", "it is a folder"),
        ("elf.hex", "objcopy"),
        ("long.hex", "more than 67,108,864 bytes"),
        ("endless.hex", "more than 67,108,864 bytes"),
    ]
    for name, told in mistakes:
        ended = run([REPORT, folder / name])
        one = ended.stderr.count("\n") == 1 and name in ended.stderr and told in ended.stderr
        checks.check(f"report: {name} says what is wrong", (ended.returncode, ended.stdout, one) == (2, "", True), f"{ended.returncode}\n{ended.stdout}{ended.stderr}")
    (folder / "temporary").mkdir()
    for name, status in [("x.hex", 0), ("refused.hex", 1), ("endless.hex", 2)]:
        ended = run([REPORT, folder / name], env={"TMPDIR": str(folder / "temporary")})
        left = os.listdir(folder / "temporary")
        checks.check(f"report: {name} leaves no temporary file", ended.returncode == status and not left, f"{ended.returncode}\n{ended.stderr}{left}")
    os.mkfifo(folder / "waits.hex")
    writer = os.open(folder / "waits.hex", os.O_RDWR)
    for name, by, status in SIGNALS:
        came = stopped([REPORT, folder / "waits.hex"], by, folder / "temporary")
        checks.check(f"report: {name} leaves no temporary file", came == (status, b"", []), str(came))
    os.close(writer)


def check_outputs(checks, folder):
    """Output that cannot be written is status 2, with a line that says so."""
    for name, words in [("a report", [REPORT, SAMPLE]), ("Intel HEX", [REPORT, folder / "x.hex"]), ("a refusal", [REPORT, "/dev/null"]), ("--help", [REPORT, "--help"])]:
        with open("/dev/full", "w") as full:
            ended = run(words, stdout=full)
        checks.check(f"report: {name} on a full disk", ended.returncode == 2 and "could not be written" in ended.stderr, ended.stderr)
        reader, writer = os.pipe()
        os.close(reader)
        ended = run(words, stdout=writer)
        os.close(writer)
        checks.check(f"report: {name} into a closed pipe", ended.returncode == 2 and "could not be written" in ended.stderr, ended.stderr)
        ended = run(["sh", "-c", '"$0" "$@" >&-', *words])
        checks.check(f"report: {name} with no output at all", ended.returncode == 2 and "could not be written" in ended.stderr, ended.stderr)


def check(checks, folder):
    checks.part("./report")
    for option, begins in [("--help", "usage: ./report"), ("-h", "usage: ./report"), ("--version", (TOP / "VERSION").read_text())]:
        ended = run([REPORT, option])
        checks.check(f"report: {option}", ended.returncode == 0 and ended.stdout.startswith(begins) and not ended.stderr, ended.stdout + ended.stderr)
    check_reports(checks, folder)
    check_refusals(checks, folder)
    check_mistakes(checks, folder)
    check_names(checks, folder)
    check_longer(checks, folder)
    check_hex_refusals(checks, folder)
    check_outputs(checks, folder)
