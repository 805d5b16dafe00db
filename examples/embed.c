/* Runs an image and prints every store into a link window: its cycle, and the cycles since the one before. Then the
 * cycles, the instructions done and the ticks of the slot memory so far.
 *
 *     gcc -std=c11 -Wall -Wextra -pedantic -I include examples/embed.c target/staticlib/libslot.a -o target/embed
 *     target/embed [IMAGE FROM-TO [CYCLES]]
 *
 * It is C11 and C++17. examples/rust is the same program in Rust. */
#include <errno.h>
#include <inttypes.h>
#include <signal.h>
#include <stdarg.h>
#include <stdio.h>
#include <stdlib.h>
#include <string.h>

#include "slot_core.h"

enum { MOST = 65536 };

static const uint64_t MOST_CYCLES = UINT64_C(1) << 40;

static const char usage[] =
    "usage: embed [IMAGE FROM-TO [CYCLES]]\n"
    "Runs IMAGE, raw memory from address 0, where it begins, and prints every store into the link window.\n"
    "  FROM-TO   hexadecimal byte addresses, multiples of 4, TO not included\n"
    "  CYCLES    how many to run at most: 1000000 unless given, at most 1099511627776 (2^40)\n"
    "Without arguments a sample runs, with the window 80-84.\n"
    "Status 0, or 1 where the image is refused, or 2 where something else is wrong.\n";

/* R1 counts to 5, and each count is stored at 80; then a SWI, which stops with 22. */
static const uint32_t sample[] = {
    0xE3A00080, 0xE3A01000, 0xE2811001, 0xE5801000, 0xE3510005, 0x1AFFFFFB, 0xEF000000,
};

static uint8_t memory[MOST];

static const char *meaning(uint32_t answer)
{
    switch (answer) {
    case SLOT_OK: return "the cycles asked for are spent";
    case SLOT_BAD_LENGTH: return "an image has 16 to 65536 bytes, a multiple of 4";
    case SLOT_STOP_NO_WORD: return "no word there: the program ran past the end of memory";
    case SLOT_STOP_OTHER: return "a SWI, or an instruction that this core has not";
    case SLOT_STOP_FORBIDDEN: return "a form that the rules forbid";
    case SLOT_STOP_OUTSIDE: return "a load or store outside memory";
    case SLOT_STOP_FETCHED: return "a store to one of the next two words, which are fetched already";
    default: return "refused";
    }
}

/* One line on standard error. */
static void complain(const char *format, ...)
{
    va_list arguments;
    va_start(arguments, format);
    fputs("embed: ", stderr);
    vfprintf(stderr, format, arguments);
    fputc('\n', stderr);
    va_end(arguments);
}

/* The bytes of an image in memory, or -1 where the file cannot be read. One past MOST is told by its refusal. */
static long load(const char *path)
{
    FILE *file = fopen(path, "rb");
    size_t length;
    int more, wrong;
    if (file == NULL) {
        complain("cannot open %s: %s", path, strerror(errno));
        return -1;
    }
    errno = 0;
    length = fread(memory, 1, MOST, file);
    more = length == MOST && fgetc(file) != EOF;
    wrong = ferror(file) ? errno : 0;
    fclose(file);
    if (wrong != 0) {
        complain("cannot read %s: %s", path, strerror(wrong));
        return -1;
    }
    return (long)length + more;
}

static long load_sample(void)
{
    for (size_t i = 0; i < sizeof sample; i++) {
        memory[i] = (uint8_t)(sample[i / 4] >> 8 * (i % 4));
    }
    return 256;
}

/* Digits to their end, with no sign and no space; whether they are a number of at most `most`. */
static int number(const char *text, const char *end, int base, uint64_t most, uint64_t *value)
{
    static const char digits[] = "0123456789abcdef";
    *value = 0;
    if (text == end) {
        return 0;
    }
    for (; text < end; text++) {
        int lower = *text >= 'A' && *text <= 'F' ? *text + 'a' - 'A' : *text;
        const char *found = lower == 0 ? NULL : strchr(digits, lower);
        if (found == NULL || found - digits >= base) {
            return 0;
        }
        *value = *value * (uint64_t)base + (uint64_t)(found - digits);
        if (*value > most) {
            return 0;
        }
    }
    return 1;
}

static int window(const char *text, uint64_t *from, uint64_t *to)
{
    const char *dash = strchr(text, '-');
    return dash != NULL && number(text, dash, 16, MOST, from) && number(dash + 1, text + strlen(text), 16, MOST, to) &&
           *from % 4 == 0 && *to % 4 == 0 && *from < *to;
}

/* A count of the array: its low word and the next. */
static uint64_t count(const uint32_t *core, size_t low)
{
    return (uint64_t)core[low + 1] << 32 | core[low];
}

/* The ticks of the start's refill and of all instructions done: the header's way. */
static uint64_t ticks(const uint32_t *core)
{
    return 2 * count(core, SLOT_CORE_SUM_N) + count(core, SLOT_CORE_SUM_S) + count(core, SLOT_CORE_SUM_I);
}

static void tell(uint64_t cycle, uint64_t gap, uint32_t bytes, uint32_t address, uint32_t datum)
{
    printf("cycle %" PRIu64 ": %" PRIu32 " byte%s at %08" PRIX32 ", ", cycle, bytes, bytes == 1 ? "" : "s", address);
    printf("%0*" PRIX32, (int)(2 * bytes), bytes == 1 ? datum % 256 : datum);
    if (gap != 0) {
        printf(", %" PRIu64 " after the one before", gap);
    }
    putchar('\n');
}

/* Runs a started core and tells its stores; whatever is printed may have failed. */
static void watch(uint32_t *core, size_t length, uint64_t from, uint64_t to, uint64_t most)
{
    uint64_t used, cycles = 0, last = 0, stores = 0;
    uint32_t answer = SLOT_OK;
    while (answer == SLOT_OK && cycles < most && !ferror(stdout)) {
        uint32_t address, bytes = slot_core_store(core, &address), datum = core[SLOT_CORE_DATUM];
        answer = slot_core_run(core, memory, length, 1, &used);
        cycles += used;
        if (bytes != 0 && address >= from && address < to) {
            tell(cycles, stores == 0 ? 0 : cycles - last, bytes, address, datum);
            last = cycles;
            stores++;
        }
    }
    printf("answer %" PRIu32 " (%s)", answer, meaning(answer));
    if (answer >= SLOT_STOP_FIRST) {
        printf(" at %08" PRIX32, (core[SLOT_CORE_PC] - 8) % (UINT32_C(1) << 26));
    }
    printf(" after %" PRIu64 " cycles and %" PRIu64 " instructions (%" PRIu64 " ticks)", cycles, count(core, SLOT_CORE_RETIRED),
           ticks(core));
    printf("; stores into %08" PRIX64 "-%08" PRIX64 ": %" PRIu64 "\n", from, to, stores);
}

/* The status of a program that has printed all it has to say. */
static int printed(void)
{
    if (fflush(stdout) != 0 || ferror(stdout)) {
        complain("the output could not be written");
        return 2;
    }
    return 0;
}

int main(int argc, char **argv)
{
    const uint32_t registers[15] = {0};
    uint32_t core[SLOT_CORE_WORDS], answer;
    uint64_t from = 0x80, to = 0x84, most = 1000000;
    long length;
    signal(SIGPIPE, SIG_IGN); /* a closed pipe is a failed write like any other */
    if (argc == 2 && (strcmp(argv[1], "--help") == 0 || strcmp(argv[1], "-h") == 0)) {
        fputs(usage, stdout);
        return printed();
    }
    if (argc == 2 || argc > 4) {
        complain(argc == 2 ? "an image needs a window" : "too many arguments");
        fputs(usage, stderr);
        return 2;
    }
    if (argc > 2 && !window(argv[2], &from, &to)) {
        complain("'%s' is no window FROM-TO: hexadecimal multiples of 4, FROM below TO, up to 10000", argv[2]);
        return 2;
    }
    if (argc > 3 && !number(argv[3], argv[3] + strlen(argv[3]), 10, MOST_CYCLES, &most)) {
        complain("'%s' is no number of cycles up to 1099511627776", argv[3]);
        return 2;
    }
    length = argc > 1 ? load(argv[1]) : load_sample();
    if (length < 0) {
        return 2;
    }
    if (length >= 4 && memcmp(memory, "\177ELF", 4) == 0) {
        complain("%s is an ELF file and no raw image; arm-none-eabi-objcopy -O binary ELF IMAGE makes one", argv[1]);
        return 2;
    }
    answer = length > MOST ? (uint32_t)SLOT_BAD_LENGTH : slot_core_start(core, registers, 0, 0, memory, (size_t)length);
    if (answer != SLOT_OK) {
        complain("%s is refused with %" PRIu32 ": %s", argc > 1 ? argv[1] : "the sample", answer, meaning(answer));
        return 1;
    }
    if (to > (uint64_t)length) {
        complain("the window ends at %" PRIX64 ", the image at %lX", to, (unsigned long)length);
        return 2;
    }
    watch(core, (size_t)length, from, to, most);
    return printed();
}
