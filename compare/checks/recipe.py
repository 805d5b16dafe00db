"""README's recipe from a compiler to an image, as it stands there, where a compiler for ARM is."""
import re
import shutil

from harness import ARCHIVE, TOP, run

# What the first stores of samples/sender.c hand over, whatever code a compiler makes of it.
FRAME = ["7E7E7E7E", "00042021", "04080601", "9DCCA8C5", "1255994F", "8EF917D1", "2C6F5BD0", "6F96DBD7", "7E7E7E7E"]

# A filter that a compiler makes MUL and MLA of; the taps are volatile, so that it can't know their values.
TAPS = [3, -7, 1024, 40000]
FILTER = """
#define LINK (*(volatile unsigned *)0x3F0)
__attribute__((naked, section(".start"))) void start(void) { __asm__("mov sp, #0x3F0\\n\\tb filter"); }
static volatile int taps[4] = {%s};
__attribute__((noreturn)) void filter(void)
{
    for (int n = 1;; n++) {
        int sum = taps[0] * n;
        for (int i = 1; i < 4; i++) {
            sum += taps[i] * (n + i);
        }
        LINK = sum;
    }
}
""" % ", ".join(map(str, TAPS))


def sent(folder, image):
    """The words that an image hands to its link buffer."""
    seen = run([folder / "embed", folder / image, "3F0-3F4", "100000"])
    return re.findall(r"4 bytes at 000003F0, ([0-9A-F]{8})", seen.stdout), seen.stdout[:1000] + seen.stderr


def check_filter(checks, folder, commands):
    (folder / "samples/filter.c").write_text(FILTER)
    for command in commands:
        checks.command(f"{command.split()[0]} on a filter", ["sh", "-c", command.replace("sender", "filter")], cwd=folder)
    listed = run(["arm-none-eabi-objdump", "-d", folder / "filter.elf"]).stdout
    checks.check("the filter multiplies", "\tmul\t" in listed or "\tmla\t" in listed, listed)
    wanted = [f"{sum(tap * (n + i) for i, tap in enumerate(TAPS)) % 2**32:08X}" for n in range(1, 41)]
    words, text = sent(folder, "filter.bin")
    checks.check("it sends its sums", words[: len(wanted)] == wanted, text)


def check(checks, folder):
    checks.part("the recipe")
    commands = re.findall(r"^    (arm-none-eabi-.*)$", (TOP / "README.md").read_text(), re.MULTILINE)
    checks.check("README.md has the recipe", len(commands) == 3, "\n".join(commands))
    if not shutil.which("arm-none-eabi-gcc"):
        print("      no arm-none-eabi-gcc here: the recipe is not tried")
        return
    shutil.copytree(TOP / "samples", folder / "samples")
    for command in commands:
        checks.command(command.split()[0], ["sh", "-c", command], cwd=folder)
    if not (folder / "sender.bin").exists():
        return
    report = run([TOP / "report", folder / "sender.bin"])
    checks.check("./report runs the image", report.returncode == 0 and report.stdout.startswith("answer=0\n"), report.stdout + report.stderr)
    elf = run([TOP / "report", folder / "sender.elf"])
    checks.check("./report names the ELF file", elf.returncode == 2 and "ELF" in elf.stderr, elf.stdout + elf.stderr)
    built = run(["gcc", "-std=c11", "-I", TOP / "include", TOP / "examples/embed.c", ARCHIVE, "-o", folder / "embed"])
    words, text = sent(folder, "sender.bin")
    checks.check("it sends its frames", built.returncode == 0 and words[: len(FRAME)] == FRAME, text)
    check_filter(checks, folder, commands)
