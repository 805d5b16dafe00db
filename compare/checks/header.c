/* What include/slot_core.h says and names, held to the archive: C11 and C++17. Prints each line that is not so, then counts.
 *
 * The expected values come from the rules of the machine, worked out here; nothing is taken from the product. */
#include <stdio.h>
#include <string.h>

#include "slot_core.h"

enum { LENGTH = 256, IMAGES = 3000, CYCLES = 400 };

static unsigned passed, failed;

static void so(int holds, const char *claim, uint32_t detail)
{
    if (holds) {
        passed++;
    } else {
        failed++;
        printf("not so: %s (%08X)\n", claim, (unsigned)detail);
    }
}

/* ---- a machine of 256 bytes */

static const uint32_t zeros[15] = {0};
static uint8_t memory[LENGTH];
static uint32_t core[SLOT_CORE_WORDS];

static void put(size_t address, uint32_t word)
{
    for (size_t i = 0; i < 4; i++) {
        memory[address + i] = (uint8_t)(word >> 8 * i);
    }
}

static uint32_t word_at(const uint8_t *bytes, size_t address)
{
    const uint8_t *b = bytes + address;
    return b[0] | (uint32_t)b[1] << 8 | (uint32_t)b[2] << 16 | (uint32_t)b[3] << 24;
}

static uint32_t run(uint64_t budget)
{
    uint64_t used;
    return slot_core_run(core, memory, LENGTH, budget, &used);
}

/* Memory all 0 but for some words from 0 on, and a core at its first boundary. */
static void begin(const uint32_t *words, size_t n, const uint32_t *registers, uint32_t flags)
{
    memset(memory, 0, LENGTH);
    for (size_t i = 0; i < n; i++) {
        put(4 * i, words[i]);
    }
    slot_core_start(core, registers, flags, 0, memory, LENGTH);
    run(2);
}

/* ---- places and phases */

static void places(void)
{
    static const uint32_t words[] = {0, 0, 0, 0xE1A00000, 0xE5A21004, 0xE3A07001, 0xE3A07002};
    uint32_t registers[15];
    for (uint32_t k = 0; k < 15; k++) {
        registers[k] = 0x40 + 4 * k;
    }
    memset(memory, 0, LENGTH);
    for (size_t i = 0; i < 7; i++) {
        put(4 * i, words[i]);
    }
    so(slot_core_start(core, registers, 6, 0x0C, memory, LENGTH) == SLOT_OK, "a start is accepted", 0);
    so(memcmp(core + SLOT_CORE_R0, registers, sizeof registers) == 0, "R0 to R14 are those of the start", 0);
    so(core[SLOT_CORE_PC] == 0x0C && core[SLOT_CORE_FLAGS] == 6 && core[SLOT_CORE_LENGTH] == LENGTH, "PC, FLAGS and LENGTH of a start", 0);
    so(core[SLOT_CORE_STOP] == 0 && core[SLOT_CORE_CYCLES] == 0 && core[SLOT_CORE_CYCLES_HIGH] == 0, "STOP and CYCLES of a start", 0);
    so(core[SLOT_CORE_RETIRED] == 0 && core[SLOT_CORE_RETIRED_HIGH] == 0, "RETIRED of a start", 0);
    so(core[SLOT_CORE_IR1_VALID] == 0 && core[SLOT_CORE_IR2_VALID] == 0 && core[SLOT_CORE_IX_VALID] == 0, "a start's words are blank", 0);
    so(core[SLOT_CORE_PHASE] == SLOT_PHASE_REFILL1, "a start begins with refill 1", core[SLOT_CORE_PHASE]);
    run(1);
    so(core[SLOT_CORE_PHASE] == SLOT_PHASE_REFILL2, "refill 2 follows refill 1", core[SLOT_CORE_PHASE]);
    run(1);
    so(core[SLOT_CORE_PHASE] == SLOT_PHASE_STEP1, "step 1 follows refill 2", core[SLOT_CORE_PHASE]);
    so(core[SLOT_CORE_PC] - 8 == 0x0C, "A is PC-8 at a boundary", core[SLOT_CORE_PC]);
    so(core[SLOT_CORE_IX] == words[3] && core[SLOT_CORE_IR2] == words[3] && core[SLOT_CORE_IR1] == words[4], "IX, IR2 and IR1 at a boundary", 0);
    so(core[SLOT_CORE_IX_VALID] == 1 && core[SLOT_CORE_IR2_VALID] == 1 && core[SLOT_CORE_IR1_VALID] == 1, "words that are there are marked 1", 0);
    /* MOV R0, R0, then STR R1, [R2, #4]! at 10: R1 = 44, R2 = 48. */
    run(2);
    so(core[SLOT_CORE_PHASE] == SLOT_PHASE_STEP2, "step 2 follows a store's step 1", core[SLOT_CORE_PHASE]);
    so(core[SLOT_CORE_ADDRESS] == 0x4C && core[SLOT_CORE_DATUM] == 0x44 && core[SLOT_CORE_BASE] == 0x4C, "ADDRESS, DATUM and BASE of a store", 0);
    so(core[SLOT_CORE_PC] - 12 == 0x10, "A is PC-12 in step 2", core[SLOT_CORE_PC]);
    so(core[SLOT_CORE_IX] == words[4] && core[SLOT_CORE_IR2] == words[5] && core[SLOT_CORE_IR1] == words[6], "IX, IR2 and IR1 in step 2", 0);
    so(core[SLOT_CORE_R0 + 2] == 0x48 && word_at(memory, 0x4C) == 0, "an instruction half done", 0);
    run(1);
    so(core[SLOT_CORE_R0 + 2] == 0x4C && word_at(memory, 0x4C) == 0x44, "the same, done", 0);
    so(core[SLOT_CORE_ADDRESS] == 0 && core[SLOT_CORE_DATUM] == 0 && core[SLOT_CORE_BASE] == 0, "latches that nothing needs are 0", 0);
    so(core[SLOT_CORE_CYCLES] == 5 && core[SLOT_CORE_RETIRED] == 2, "CYCLES and RETIRED", core[SLOT_CORE_CYCLES]);
}

static void plain_places(void)
{
    static const uint32_t words[] = {0xE3A03007, 0xEF000000};
    uint32_t plain[SLOT_PLAIN_WORDS];
    uint64_t used;
    begin(words, 2, zeros, 0);
    so(slot_plain_start(plain, zeros, 9, 0, memory, LENGTH) == SLOT_OK, "a plain start is accepted", 0);
    so(plain[SLOT_PLAIN_A] == 0 && plain[SLOT_PLAIN_FLAGS] == 9 && plain[SLOT_PLAIN_LENGTH] == LENGTH, "A, FLAGS and LENGTH of a plain start", 0);
    so(slot_plain_run(plain, memory, LENGTH, 5, &used) == SLOT_STOP_OTHER && used == 1, "a plain run counts instructions", plain[SLOT_PLAIN_A]);
    so(plain[SLOT_PLAIN_R0 + 3] == 7 && plain[SLOT_PLAIN_A] == 4 && plain[SLOT_PLAIN_STOP] == 22, "R3, A and STOP after it", plain[SLOT_PLAIN_A]);
}

/* ---- answers */

static void stop_of(uint32_t word, uint32_t stop, const char *claim)
{
    begin(&word, 1, zeros, 0);
    so(run(1) == stop && core[SLOT_CORE_STOP] == stop, claim, core[SLOT_CORE_STOP]);
}

static void answers(void)
{
    uint64_t used;
    uint32_t record[SLOT_RECORD_WORDS] = {0}, word = 7, kept[SLOT_CORE_WORDS];
    stop_of(0xEF000000, SLOT_STOP_OTHER, "22 is a SWI");
    stop_of(0xE1000091, SLOT_STOP_OTHER, "22 is an instruction that this core has not");
    stop_of(0xE8800000, SLOT_STOP_FORBIDDEN, "23 is a block of no registers");
    stop_of(0xE5901F00, SLOT_STOP_OUTSIDE, "24 is a load outside memory");
    stop_of(0xE5800004, SLOT_STOP_FETCHED, "25 is a store to A+4");
    stop_of(0xE5800008, SLOT_STOP_FETCHED, "25 is a store to A+8");
    begin(zeros, 0, zeros, 0);
    so(run(100000) == SLOT_STOP_NO_WORD && core[SLOT_CORE_PC] - 8 == LENGTH, "21 is past the end of memory", core[SLOT_CORE_PC]);
    so(SLOT_STOP_FIRST == SLOT_STOP_NO_WORD && SLOT_STOP_LAST == SLOT_STOP_FETCHED, "the first and the last stop", 0);
    memcpy(kept, core, sizeof kept);
    so(run(5) == SLOT_STOP_NO_WORD && memcmp(kept, core, sizeof kept) == 0, "a stop is answered again", 0);
    so(slot_core_start(core, zeros, 0, 0, memory, 12) == SLOT_BAD_LENGTH, "1 is the length", 0);
    so(slot_core_start(core, zeros, 0, LENGTH, memory, LENGTH) == SLOT_BAD_ENTRY, "2 is the entry", 0);
    so(slot_core_start(core, zeros, 16, 0, memory, LENGTH) == SLOT_BAD_FLAGS, "4 is flags above 15", 0);
    so(core[SLOT_CORE_LENGTH] == 0, "a refused start leaves the core all 0", 0);
    begin(zeros, 0, zeros, 0);
    so(run(1000001) == SLOT_BAD_BUDGET, "3 is a budget above 1,000,000", 0);
    so(slot_core_run(core, memory, LENGTH - 4, 1, &used) == SLOT_OTHER_MEMORY, "12 is memory of another length", 0);
    core[SLOT_CORE_FLAGS] = 16;
    so(run(1) == SLOT_BAD_RECORD, "11 is a bad record", 0);
    record[SLOT_RECORD_CLASS] = 9;
    so(slot_word_write(record, &word) == SLOT_NO_WORD && word == 0, "5 is a record that has no word", 9);
}

/* ---- long runs, and ticks */

enum { SUM_WORDS = SLOT_CORE_SUM_I_HIGH + 1 - SLOT_CORE_SUM_N, COUNT_WORDS = SLOT_CORE_RETIRED_HIGH + 1 - SLOT_CORE_CYCLES };

static uint64_t count(size_t low)
{
    return (uint64_t)core[low + 1] << 32 | core[low];
}

static void set_count(size_t low, uint64_t value)
{
    core[low] = (uint32_t)value;
    core[low + 1] = (uint32_t)(value >> 32);
}

static void set_sums(uint64_t n, uint64_t s, uint64_t i)
{
    set_count(SLOT_CORE_SUM_N, n);
    set_count(SLOT_CORE_SUM_S, s);
    set_count(SLOT_CORE_SUM_I, i);
}

static int sums_are(uint64_t n, uint64_t s, uint64_t i)
{
    return count(SLOT_CORE_SUM_N) == n && count(SLOT_CORE_SUM_S) == s && count(SLOT_CORE_SUM_I) == i;
}

/* By the header's lines. */
static uint64_t ticks(void)
{
    uint64_t n = (uint64_t)core[SLOT_CORE_SUM_N_HIGH] << 32 | core[SLOT_CORE_SUM_N];
    uint64_t s = (uint64_t)core[SLOT_CORE_SUM_S_HIGH] << 32 | core[SLOT_CORE_SUM_S];
    uint64_t i = (uint64_t)core[SLOT_CORE_SUM_I_HIGH] << 32 | core[SLOT_CORE_SUM_I];
    return 2 * n + s + i;
}

/* Whether a run and a settle refuse the core with 11, and change nothing. A run of no cycles tells as well. */
static int bad(void)
{
    uint32_t before[SLOT_CORE_WORDS];
    uint64_t used;
    memcpy(before, core, sizeof before);
    return run(0) == SLOT_BAD_RECORD && run(1) == SLOT_BAD_RECORD && slot_core_settle(core, memory, LENGTH, &used) == SLOT_BAD_RECORD &&
           used == 0 && memcmp(before, core, sizeof before) == 0;
}

/* Near 2^40 cycles: 13 changes nothing, and with counts set to 0 the core goes on as it would have. */
static void long_runs(void)
{
    static const uint32_t words[] = {0xE2800001, 0xE5810040, 0xEAFFFFFC};
    uint32_t near[SLOT_CORE_WORDS], on[SLOT_CORE_WORDS];
    begin(words, 3, zeros, 0);
    core[SLOT_CORE_CYCLES] = 0xFFFFFFFB;
    core[SLOT_CORE_CYCLES_HIGH] = 0xFF;
    memcpy(near, core, sizeof near);
    so(run(6) == SLOT_TOO_MANY && memcmp(near, core, sizeof near) == 0, "13 is past 2^40 cycles", 0);
    so(run(5) == SLOT_OK && core[SLOT_CORE_CYCLES_HIGH] == 0x100 && core[SLOT_CORE_CYCLES] == 0, "2^40 cycles themselves are allowed", 0);
    begin(words, 3, zeros, 0);
    run(100 * 6);
    memcpy(on, core, sizeof on);
    begin(words, 3, zeros, 0);
    run(50 * 6);
    so(core[SLOT_CORE_PHASE] == SLOT_PHASE_STEP1, "a loop of 6 cycles", core[SLOT_CORE_PHASE]);
    memset(core + SLOT_CORE_CYCLES, 0, COUNT_WORDS * sizeof *core);
    so(bad(), "11 is a core whose sums were left as they were", core[SLOT_CORE_SUM_S]);
    memset(core + SLOT_CORE_SUM_N, 0, SUM_WORDS * sizeof *core);
    run(50 * 6);
    so(core[SLOT_CORE_CYCLES] == 300 && core[SLOT_CORE_RETIRED] == 150, "counts begin anew", core[SLOT_CORE_CYCLES]);
    so(sums_are(150, 150, 0) && ticks() == 450, "and the sums with them", core[SLOT_CORE_SUM_N]); /* S, 2N and 2S + N each time */
    memcpy(core + SLOT_CORE_CYCLES, on + SLOT_CORE_CYCLES, COUNT_WORDS * sizeof *core);
    memcpy(core + SLOT_CORE_SUM_N, on + SLOT_CORE_SUM_N, SUM_WORDS * sizeof *core);
    so(memcmp(on, core, sizeof on) == 0, "nothing else in a core depends on its counts", 0);
}

/* What a word's instruction adds to the sums, in its last cycle alone. What it writes to R15 is R0, or a word of memory: 10. */
static void adds(uint32_t word, uint64_t n, uint64_t s, uint64_t i, const char *claim)
{
    uint32_t registers[15] = {0x10, 0x80, 9, 32, 0, 0xFFFFFFFF, 1}; /* m by R2, R5 and R6 is 3, 16 and 1 */
    begin(&word, 1, registers, 0);
    for (size_t at = 0x80; at < 0xC0; at += 4) {
        put(at, 0x10);
    }
    for (uint64_t cycle = 1; cycle < n + s + i; cycle++) {
        run(1);
        so(sums_are(1, 1, 0) && ticks() == 3 && core[SLOT_CORE_RETIRED] == 0, "an instruction under way is in no sum", word);
        so(core[SLOT_CORE_PHASE] != SLOT_PHASE_STEP1, "it is under way", word);
    }
    run(1);
    so(sums_are(1 + n, 1 + s, i) && ticks() == 3 + 2 * n + s + i, claim, word);
    so(core[SLOT_CORE_PHASE] == SLOT_PHASE_STEP1 && core[SLOT_CORE_RETIRED] == 1 && core[SLOT_CORE_CYCLES] == 2 + n + s + i, "it is done", word);
}

static void tick_table(void)
{
    memset(memory, 0, LENGTH);
    slot_core_start(core, zeros, 0, 0, memory, LENGTH);
    so(sums_are(0, 0, 0), "a start's sums are 0", 0);
    run(1);
    so(sums_are(0, 0, 0), "and after a cycle still", 0);
    run(1);
    so(sums_are(1, 1, 0) && ticks() == 3 && core[SLOT_CORE_RETIRED] == 0, "the start's refill: S + N in the second cycle", 0);
    adds(0x01A00000, 0, 1, 0, "condition failed: S");
    adds(0x08918030, 0, 1, 0, "condition failed of a block load: S");
    adds(0xE1A04001, 0, 1, 0, "processing: S");
    adds(0xE331F000, 0, 1, 0, "TEQ with Rd=15 stores no counter: S");
    adds(0xE1A04210, 0, 1, 1, "processing with a shift by register: S + I");
    adds(0xE1A0F000, 1, 2, 0, "MOV R15: S, and S + N more");
    adds(0xE1B0F370, 1, 2, 1, "MOVS R15 with a shift by register: S + I, and S + N more");
    adds(0xE5914000, 1, 1, 1, "single load: S + N + I");
    adds(0xE5D14001, 1, 1, 1, "load of a byte: S + N + I");
    adds(0xE591F000, 2, 2, 1, "load of R15: S + N + I, and S + N more");
    adds(0xE5814000, 2, 0, 0, "single store: 2N");
    adds(0xE5C14001, 2, 0, 0, "store of a byte: 2N");
    adds(0xE581F000, 2, 0, 0, "store of R15: 2N");
    adds(0xE8910010, 1, 1, 1, "block load of 1: S + N + I");
    adds(0xE89140F0, 1, 5, 1, "block load of 5: 5S + N + I");
    adds(0xE8918030, 2, 4, 1, "block load of 3 with R15: 3S + N + I, and S + N more");
    adds(0xE8810010, 2, 0, 0, "block store of 1: 2N");
    adds(0xE88140F0, 2, 4, 0, "block store of 5: 4S + 2N");
    adds(0xE8818030, 2, 2, 0, "block store of 3 with R15: 2S + 2N");
    adds(0xEA000002, 1, 2, 0, "branch: 2S + N");
    adds(0xEB000002, 1, 2, 0, "branch with link: 2S + N");
    adds(0xE0040290, 0, 1, 3, "MUL, m is 3: S + 3I");
    adds(0xE0020290, 0, 1, 3, "MUL into Rs: S + 3I");
    adds(0xE0240591, 0, 1, 16, "MLA, m is 16: S + 16I");
    adds(0xE0140691, 0, 1, 1, "MULS, m is 1: S + I");
}

/* 11: sums that together are above CYCLES, whatever they come to in 64 bits. */
static void bad_sums(void)
{
    static const uint32_t word = 0xE1A00000;
    const uint64_t half = UINT64_C(1) << 63, above = UINT64_C(1) << 32;
    begin(&word, 1, zeros, 0);
    so(run(0) == SLOT_OK, "sums of CYCLES are fine", 0);
    set_sums(1, 1, 1);
    so(bad(), "11 is sums of 1 above CYCLES", 0);
    set_sums(0, 0, 0);
    so(run(1) == SLOT_OK && sums_are(0, 1, 0), "sums below CYCLES are fine", core[SLOT_CORE_SUM_S]);
    for (size_t at = SLOT_CORE_SUM_N; at <= SLOT_CORE_SUM_I; at += 2) {
        set_sums(0, 0, 0);
        set_count(at, 4);
        so(bad(), "11 is one sum above CYCLES", (uint32_t)at);
        set_count(at, above);
        so(bad(), "11 is one high word above CYCLES", (uint32_t)at);
        set_count(SLOT_CORE_CYCLES, above);
        so(run(0) == SLOT_OK, "sums of CYCLES with a high word are fine", (uint32_t)at);
        set_count(SLOT_CORE_CYCLES, 3);
    }
    set_sums(half, half, 0);
    so(bad(), "11 is sums of 2^64", 0);
    set_sums(1, half, half);
    so(bad(), "11 is sums of 2^64 + 1", 0);
    set_sums(UINT64_MAX, 1, 3);
    so(bad(), "11 is sums of 2^64 + 3", 0);
    begin(&word, 1, zeros, 0);
    set_count(SLOT_CORE_CYCLES, above);
    set_sums(0, above - 1, 1);
    so(run(1) == SLOT_OK && sums_are(0, above, 1) && ticks() == above + 1, "a sum rises into its high word", core[SLOT_CORE_SUM_S_HIGH]);
}

/* 11: a refill with a word in IX that cannot store the counter, by the word alone. Either refill, at the start's place. */
static void refills_of(uint32_t word, int can, const char *claim)
{
    for (unsigned done = 0; done < 2; done++) {
        memset(memory, 0, LENGTH);
        slot_core_start(core, zeros, 0, 0, memory, LENGTH);
        run(done);
        so(run(0) == SLOT_OK, "a blank IX is the start's refill", done);
        core[SLOT_CORE_IX] = word;
        core[SLOT_CORE_IX_VALID] = 1;
        so(can ? run(0) == SLOT_OK : bad(), claim, word);
    }
}

static void bad_refills(void)
{
    refills_of(0xEA000000, 1, "a branch can be refilled");
    refills_of(0x0B000000, 1, "a branch whose condition the flags no longer pass, too");
    refills_of(0x01A0F000, 1, "MOV R15 likewise");
    refills_of(0xE1B0F370, 1, "MOVS R15 with a shift by register");
    refills_of(0xE591F000, 1, "a load of R15");
    refills_of(0xE8918030, 1, "a block load with R15");
    refills_of(0xFA000000, 0, "11 is a refill of a branch with SLOT_CONDITION_NV");
    refills_of(0xF1A0F000, 0, "11 is a refill of MOV R15 with SLOT_CONDITION_NV");
    refills_of(0xE1A0FF10, 0, "11 is a refill of a form that the rules forbid: Rs=15");
    refills_of(0xE5D1F000, 0, "11 is a refill of a form that the rules forbid: a byte to R15");
    refills_of(0xE8D18000, 0, "11 is a refill of a form that the rules forbid: a block with S");
    refills_of(0xE1A00000, 0, "11 is a refill of MOV R0");
    refills_of(0xE331F000, 0, "11 is a refill of TEQ with Rd=15");
    refills_of(0xE5914000, 0, "11 is a refill of a load of R4");
    refills_of(0xE581F000, 0, "11 is a refill of a store of R15");
    refills_of(0xE8910030, 0, "11 is a refill of a block load without R15");
    refills_of(0xE8818030, 0, "11 is a refill of a block store with R15");
    refills_of(0xE0040291, 0, "11 is a refill of a multiply");
    refills_of(0xEF000000, 0, "11 is a refill of a SWI");
}

/* Counts set to 0 between two boundaries: the call is done, and leaves sums above CYCLES. */
static void changed_under_way(void)
{
    static const uint32_t word = 0xE5910000; /* LDR R0, [R1] */
    uint64_t used;
    for (unsigned done = 1; done < 3; done++) {
        begin(&word, 1, zeros, 0);
        run(done);
        memset(core + SLOT_CORE_CYCLES, 0, COUNT_WORDS * sizeof *core);
        memset(core + SLOT_CORE_SUM_N, 0, SUM_WORDS * sizeof *core);
        so(slot_core_settle(core, memory, LENGTH, &used) == SLOT_OK && used == 3 - done, "counts set to 0 under way are accepted", done);
        so(sums_are(1, 1, 1) && bad(), "and lead to sums above CYCLES, which the next call refuses", done);
    }
}

/* ---- settle */

static uint32_t settle(uint64_t *used)
{
    *used = 99;
    return slot_core_settle(core, memory, LENGTH, used);
}

/* From each cycle of a loop of instructions of every class: the cycles left are those that single cycles need, and where
 * they end everything is as these leave it. */
static void settled_by_cycles(void)
{
    /* LDMIA R1, {R2-R5}; STMIA R1, {R2-R4}; MOV R6, R6, LSL R7; LDR R8, [R1]; STR R8, [R1, #32]; MULNE R9, R7, R6;
     * ADD PC, PC, #0 (to the word after the next); a word that is passed over; B to the start */
    static const uint32_t words[] = {
        0xE891003C, 0xE881001C, 0xE1A06716, 0xE5918000, 0xE5818020, 0x10090697, 0xE28FF000, 0xEF000000, 0xEAFFFFF6,
    };
    uint32_t registers[15] = {0}, before[SLOT_CORE_WORDS], there[SLOT_CORE_WORDS];
    uint8_t bytes[LENGTH], left_bytes[LENGTH];
    unsigned most = 0, within = 0;
    registers[1] = 0x80;
    registers[6] = 0xF2345678; /* a multiply of 17 cycles */
    memset(memory, 0, LENGTH);
    for (size_t i = 0; i < sizeof words / sizeof *words; i++) {
        put(4 * i, words[i]);
    }
    slot_core_start(core, registers, 0, 0, memory, LENGTH);
    for (unsigned cycle = 0; cycle < 120; cycle++) {
        unsigned left = 0;
        uint64_t used;
        memcpy(before, core, sizeof before);
        memcpy(bytes, memory, LENGTH);
        while (core[SLOT_CORE_PHASE] != SLOT_PHASE_STEP1) {
            run(1);
            left++;
        }
        memcpy(there, core, sizeof there);
        memcpy(left_bytes, memory, LENGTH);
        memcpy(core, before, sizeof before);
        memcpy(memory, bytes, LENGTH);
        so(settle(&used) == SLOT_OK && used == left, "settle uses the cycles left", left);
        so(memcmp(core, there, sizeof there) == 0 && memcmp(memory, left_bytes, LENGTH) == 0, "settle ends as single cycles do", cycle);
        so(settle(&used) == SLOT_OK && used == 0 && memcmp(core, there, sizeof there) == 0, "on a boundary settle does nothing", cycle);
        most = left > most ? left : most;
        within += left > 0;
        memcpy(core, before, sizeof before);
        memcpy(memory, bytes, LENGTH);
        run(1);
    }
    so(most == 16 && within > 60, "the loop was met in the middle of its instructions", within);
}

static void settles(void)
{
    static const uint32_t words[] = {0xE8900006, 0xEF000000}; /* LDMIA R0, {R1, R2}, and a SWI */
    uint32_t before[SLOT_CORE_WORDS];
    uint64_t used;
    memset(memory, 0, LENGTH);
    put(0, words[0]);
    put(4, words[1]);
    slot_core_start(core, zeros, 0, 0, memory, LENGTH);
    so(settle(&used) == SLOT_OK && used == 2 && core[SLOT_CORE_RETIRED] == 0, "the start's refill is settled in 2 cycles", (uint32_t)used);
    so(core[SLOT_CORE_PHASE] == SLOT_PHASE_STEP1 && core[SLOT_CORE_PC] - 8 == 0, "at the first boundary A is the entry", core[SLOT_CORE_PC]);
    run(3);
    so(core[SLOT_CORE_R0 + 1] == words[0] && core[SLOT_CORE_R0 + 2] == 0, "a block load half done", core[SLOT_CORE_R0 + 2]);
    so(settle(&used) == SLOT_OK && used == 1 && core[SLOT_CORE_R0 + 2] == words[1], "the block load settled", (uint32_t)used);
    so(core[SLOT_CORE_STOP] == 0 && core[SLOT_CORE_PC] - 8 == 4, "settle finds no stop at the SWI", core[SLOT_CORE_STOP]);
    so(settle(&used) == SLOT_OK && used == 0 && core[SLOT_CORE_STOP] == 0, "nor where it stands there", core[SLOT_CORE_STOP]);
    so(run(1) == SLOT_STOP_OTHER, "the next run finds it", core[SLOT_CORE_STOP]);
    so(settle(&used) == SLOT_STOP_OTHER && used == 0, "settle answers the stop held", core[SLOT_CORE_STOP]);
    /* refusals: each changes nothing and says 0 cycles */
    begin(words, 2, zeros, 0);
    run(1); /* three cycles left */
    core[SLOT_CORE_CYCLES] = 0xFFFFFFFD;
    core[SLOT_CORE_CYCLES_HIGH] = 0xFF;
    so(settle(&used) == SLOT_OK && used == 3 && core[SLOT_CORE_CYCLES_HIGH] == 0x100 && core[SLOT_CORE_CYCLES] == 0, "2^40 cycles are allowed to settle", (uint32_t)used);
    so(settle(&used) == SLOT_OK && used == 0, "and a boundary there", (uint32_t)used);
    begin(words, 2, zeros, 0);
    run(1);
    core[SLOT_CORE_CYCLES] = 0xFFFFFFFE;
    core[SLOT_CORE_CYCLES_HIGH] = 0xFF;
    memcpy(before, core, sizeof before);
    so(settle(&used) == SLOT_TOO_MANY && used == 0 && memcmp(core, before, sizeof before) == 0, "13 where the cycles left would pass 2^40", (uint32_t)used);
    core[SLOT_CORE_FLAGS] = before[SLOT_CORE_FLAGS] = 16;
    so(settle(&used) == SLOT_BAD_RECORD && used == 0 && memcmp(core, before, sizeof before) == 0, "11 before 13", (uint32_t)used);
    used = 99;
    so(slot_core_settle(core, memory, LENGTH - 4, &used) == SLOT_OTHER_MEMORY && used == 0 && memcmp(core, before, sizeof before) == 0, "12 before 11", (uint32_t)used);
    settled_by_cycles();
}

/* ---- names of a record's numbers, by what the machine does */

static void processing(uint32_t *record, uint32_t operation)
{
    memset(record, 0, SLOT_RECORD_WORDS * sizeof *record);
    record[SLOT_RECORD_CLASS] = SLOT_CLASS_PROCESSING;
    record[SLOT_RECORD_CONDITION] = SLOT_CONDITION_AL;
    record[SLOT_RECORD_OPERATION] = operation;
    record[SLOT_RECORD_S] = 1;
    record[SLOT_RECORD_RN] = 1;
    record[SLOT_RECORD_RD] = 3;
    record[SLOT_RECORD_KIND] = SLOT_KIND_BY_AMOUNT;
    record[SLOT_RECORD_RM] = 2;
}

/* The record's instruction done, from these flags with R1 = a, R2 = b, R4 = 4; R3 is 0 before. */
static void done(const uint32_t *record, uint32_t flags, uint32_t a, uint32_t b)
{
    uint32_t registers[15] = {0}, word;
    registers[1] = a;
    registers[2] = b;
    registers[4] = 4;
    so(slot_word_write(record, &word) == SLOT_OK, "a record has a word", record[SLOT_RECORD_OPERATION]);
    begin(&word, 1, registers, flags);
    so(run(2) == SLOT_OK, "the word is done", word); /* a shift by register takes two cycles; a word 0 follows, which does nothing */
}

static void operations(void)
{
    const uint32_t a = 0xF0F01234, b = 0x0FF0CA53;
    const struct { uint32_t operation, result; const char *claim; } table[] = {
        {SLOT_OPERATION_AND, a & b, "AND"}, {SLOT_OPERATION_EOR, a ^ b, "EOR"}, {SLOT_OPERATION_SUB, a - b, "SUB"},
        {SLOT_OPERATION_RSB, b - a, "RSB"}, {SLOT_OPERATION_ADD, a + b, "ADD"}, {SLOT_OPERATION_ADC, a + b, "ADC without C"},
        {SLOT_OPERATION_SBC, a - b - 1, "SBC without C"}, {SLOT_OPERATION_RSC, b - a - 1, "RSC without C"},
        {SLOT_OPERATION_TST, 0, "TST"}, {SLOT_OPERATION_TEQ, 0, "TEQ"}, {SLOT_OPERATION_CMP, 0, "CMP"}, {SLOT_OPERATION_CMN, 0, "CMN"},
        {SLOT_OPERATION_ORR, a | b, "ORR"}, {SLOT_OPERATION_MOV, b, "MOV"}, {SLOT_OPERATION_BIC, a & ~b, "BIC"}, {SLOT_OPERATION_MVN, ~b, "MVN"},
    };
    uint32_t record[SLOT_RECORD_WORDS];
    for (size_t i = 0; i < sizeof table / sizeof *table; i++) {
        processing(record, table[i].operation);
        done(record, 0, a, b);
        so(core[SLOT_CORE_R0 + 3] == table[i].result, table[i].claim, core[SLOT_CORE_R0 + 3]);
    }
    /* What the four that store nothing are told apart by, and the three that take C. */
    processing(record, SLOT_OPERATION_TST);
    done(record, 0, 6, 5);
    so(core[SLOT_CORE_FLAGS] == 0, "TST 6, 5", core[SLOT_CORE_FLAGS]);
    processing(record, SLOT_OPERATION_TEQ);
    done(record, 0, 5, 5);
    so(core[SLOT_CORE_FLAGS] == 4, "TEQ 5, 5", core[SLOT_CORE_FLAGS]);
    processing(record, SLOT_OPERATION_CMP);
    done(record, 0, 5, 5);
    so(core[SLOT_CORE_FLAGS] == 6, "CMP 5, 5", core[SLOT_CORE_FLAGS]);
    processing(record, SLOT_OPERATION_CMN);
    done(record, 0, 0x7FFFFFFF, 1);
    so(core[SLOT_CORE_FLAGS] == 9, "CMN 7FFFFFFF, 1", core[SLOT_CORE_FLAGS]);
    processing(record, SLOT_OPERATION_ADC);
    done(record, 2, a, b);
    so(core[SLOT_CORE_R0 + 3] == a + b + 1, "ADC with C", core[SLOT_CORE_R0 + 3]);
}

static void shifts(void)
{
    const uint32_t b = 0x80000F01;
    const struct { uint32_t shift, result; const char *claim; } table[] = {
        {SLOT_SHIFT_LSL, b << 4, "LSL 4"}, {SLOT_SHIFT_LSR, b >> 4, "LSR 4"},
        {SLOT_SHIFT_ASR, b >> 4 | 0xF0000000, "ASR 4"}, {SLOT_SHIFT_ROR, b >> 4 | b << 28, "ROR 4"},
    };
    uint32_t record[SLOT_RECORD_WORDS];
    for (size_t i = 0; i < sizeof table / sizeof *table; i++) {
        processing(record, SLOT_OPERATION_MOV);
        record[SLOT_RECORD_SHIFT] = table[i].shift;
        record[SLOT_RECORD_AMOUNT] = 4;
        done(record, 0, 0, b);
        so(core[SLOT_CORE_R0 + 3] == table[i].result, table[i].claim, core[SLOT_CORE_R0 + 3]);
        record[SLOT_RECORD_KIND] = SLOT_KIND_BY_REGISTER;
        record[SLOT_RECORD_RS] = 4;
        done(record, 0, 0, b);
        so(core[SLOT_CORE_R0 + 3] == table[i].result, table[i].claim, core[SLOT_CORE_R0 + 3]);
    }
    processing(record, SLOT_OPERATION_MOV);
    record[SLOT_RECORD_KIND] = SLOT_KIND_CONSTANT;
    record[SLOT_RECORD_ROTATE] = 4;
    record[SLOT_RECORD_VALUE] = 0xFF;
    done(record, 0, 0, 0);
    so(core[SLOT_CORE_R0 + 3] == 0xFF000000, "a constant is rotated right by 2 x ROTATE", core[SLOT_CORE_R0 + 3]);
}

static int passes(uint32_t condition, uint32_t flags)
{
    const int n = flags >> 3 & 1, z = flags >> 2 & 1, c = flags >> 1 & 1, v = flags & 1;
    switch (condition) {
    case SLOT_CONDITION_EQ: return z;
    case SLOT_CONDITION_NE: return !z;
    case SLOT_CONDITION_CS: return c;
    case SLOT_CONDITION_CC: return !c;
    case SLOT_CONDITION_MI: return n;
    case SLOT_CONDITION_PL: return !n;
    case SLOT_CONDITION_VS: return v;
    case SLOT_CONDITION_VC: return !v;
    case SLOT_CONDITION_HI: return c && !z;
    case SLOT_CONDITION_LS: return !c || z;
    case SLOT_CONDITION_GE: return n == v;
    case SLOT_CONDITION_LT: return n != v;
    case SLOT_CONDITION_GT: return !z && n == v;
    case SLOT_CONDITION_LE: return z || n != v;
    case SLOT_CONDITION_AL: return 1;
    default: return 0;
    }
}

static void conditions(void)
{
    uint32_t record[SLOT_RECORD_WORDS];
    for (uint32_t at = 0; at < 256; at++) {
        processing(record, SLOT_OPERATION_MOV);
        record[SLOT_RECORD_CONDITION] = at / 16;
        done(record, at % 16, 0, 1);
        so(core[SLOT_CORE_R0 + 3] == (uint32_t)passes(at / 16, at % 16), "a condition by its name", at);
    }
}

/* MUL and MLA R3, R1, R2, R5, by the names of a multiply's fields; Rd is written in the last of the 1+m cycles. */
static void multiplies(void)
{
    for (uint32_t accumulate = 0; accumulate < 2; accumulate++) {
        uint32_t record[SLOT_RECORD_WORDS] = {0}, registers[15] = {0}, word = 0;
        registers[1] = 0xFFFFFFFF;
        registers[2] = 9; /* m is 3 */
        registers[5] = 5;
        record[SLOT_RECORD_CLASS] = SLOT_CLASS_MULTIPLY;
        record[SLOT_RECORD_CONDITION] = SLOT_CONDITION_AL;
        record[SLOT_RECORD_ACCUMULATE] = accumulate;
        record[SLOT_RECORD_S] = 1;
        record[SLOT_RECORD_RD] = 3;
        record[SLOT_RECORD_RN] = 5;
        record[SLOT_RECORD_RS] = 2;
        record[SLOT_RECORD_RM] = 1;
        so(slot_word_write(record, &word) == SLOT_OK && word == (accumulate ? 0xE0335291 : 0xE0135291), "a multiply has a word", word);
        begin(&word, 1, registers, 7);
        so(run(3) == SLOT_OK && core[SLOT_CORE_R0 + 3] == 0 && core[SLOT_CORE_PHASE] == SLOT_PHASE_STEP2 + 2, "a multiply under way", core[SLOT_CORE_PHASE]);
        so(core[SLOT_CORE_ADDRESS] == 0 && core[SLOT_CORE_DATUM] == 0 && core[SLOT_CORE_BASE] == 0, "it latches nothing", 0);
        so(run(1) == SLOT_OK && core[SLOT_CORE_R0 + 3] == (accumulate ? 0xFFFFFFFC : 0xFFFFFFF7), "a product", core[SLOT_CORE_R0 + 3]);
        so(core[SLOT_CORE_PHASE] == SLOT_PHASE_STEP1 && core[SLOT_CORE_FLAGS] == 11, "N and Z are the product's, C and V are kept", core[SLOT_CORE_FLAGS]);
        slot_word_read(word, record);
        so(record[SLOT_RECORD_CLASS] == SLOT_CLASS_MULTIPLY && record[SLOT_RECORD_KIND] == 0 && record[SLOT_RECORD_SHIFT] == 0, "a multiply read", 0);
        memset(record, 0, sizeof record);
        record[SLOT_RECORD_CLASS] = SLOT_CLASS_OTHER;
        record[SLOT_RECORD_WORD] = word;
        so(slot_word_write(record, &word) == SLOT_NO_WORD, "5 is an Other that holds a multiply", 0);
    }
}

static void classes(void)
{
    uint32_t record[SLOT_RECORD_WORDS];
    slot_word_read(0xE5912ABC, record); /* LDR R2, [R1, #ABC] */
    so(record[SLOT_RECORD_CLASS] == SLOT_CLASS_SINGLE && record[SLOT_RECORD_L] == 1 && record[SLOT_RECORD_B] == 0, "a load of a word", 0);
    so(record[SLOT_RECORD_RN] == 1 && record[SLOT_RECORD_RD] == 2 && record[SLOT_RECORD_P] == 1 && record[SLOT_RECORD_U] == 1, "its fields", 0);
    so(record[SLOT_RECORD_KIND] == SLOT_KIND_CONSTANT && 256 * record[SLOT_RECORD_ROTATE] + record[SLOT_RECORD_VALUE] == 0xABC, "its offset", 0);
    slot_word_read(0xE7E12183, record); /* STRB R2, [R1, R3, LSL #3]! */
    so(record[SLOT_RECORD_CLASS] == SLOT_CLASS_SINGLE && record[SLOT_RECORD_L] == 0 && record[SLOT_RECORD_B] == 1, "a store of a byte", 0);
    so(record[SLOT_RECORD_W] == 1 && record[SLOT_RECORD_KIND] == SLOT_KIND_BY_AMOUNT && record[SLOT_RECORD_RM] == 3, "its fields", 0);
    so(record[SLOT_RECORD_SHIFT] == SLOT_SHIFT_LSL && record[SLOT_RECORD_AMOUNT] == 3, "its offset", 0);
    slot_word_read(0xE92D4070, record); /* STMDB R13!, {R4-R6, R14} */
    so(record[SLOT_RECORD_CLASS] == SLOT_CLASS_BLOCK && record[SLOT_RECORD_L] == 0 && record[SLOT_RECORD_LIST] == 0x4070, "a block store", 0);
    slot_word_read(0xEBFFFFFE, record); /* BL to itself */
    so(record[SLOT_RECORD_CLASS] == SLOT_CLASS_BRANCH && record[SLOT_RECORD_LINK] == 1 && record[SLOT_RECORD_OFFSET] == 0xFFFFFE, "a branch with link", 0);
    slot_word_read(0xEF000011, record);
    so(record[SLOT_RECORD_CLASS] == SLOT_CLASS_OTHER && record[SLOT_RECORD_WORD] == 0xEF000011, "a SWI", 0);
}

/* ---- what the coming cycle stores and loads, on random images, cycle by cycle */

static uint64_t seed = 1;

static uint32_t random_word(void)
{
    seed ^= seed << 13;
    seed ^= seed >> 7;
    seed ^= seed << 17;
    return (uint32_t)(seed >> 16);
}

/* The bytes, 0, 1 or 4, of the coming cycle's store (l is 0) or load (l is 1): of a load by the header's text, of a store by
 * the same fields. */
static uint32_t coming(uint32_t l, uint32_t *address)
{
    uint32_t record[SLOT_RECORD_WORDS], n = 0;
    *address = core[SLOT_CORE_ADDRESS];
    if (core[SLOT_CORE_STOP] != 0 || core[SLOT_CORE_PHASE] < SLOT_PHASE_STEP2) {
        return 0;
    }
    slot_word_read(core[SLOT_CORE_IX], record);
    if (record[SLOT_RECORD_L] != l) {
        return 0;
    }
    if (record[SLOT_RECORD_CLASS] == SLOT_CLASS_SINGLE) {
        if (l == 1 && core[SLOT_CORE_PHASE] != SLOT_PHASE_STEP2) {
            return 0;
        }
        return record[SLOT_RECORD_B] == 1 ? 1 : 4;
    }
    for (uint32_t k = 0; k < 16; k++) {
        n += record[SLOT_RECORD_LIST] >> k & 1;
    }
    return record[SLOT_RECORD_CLASS] == SLOT_CLASS_BLOCK && (l == 0 || core[SLOT_CORE_PHASE] <= n + 2) ? 4 : 0;
}

/* Mostly transfers with bases inside memory, some branches and sums. */
static uint32_t random_instruction(void)
{
    const uint32_t condition = random_word() % 8 == 0 ? random_word() << 28 : 0xE0000000, word = random_word();
    switch (random_word() % 8) {
    case 0: return condition | (word & 0x03FFFFFF);                        /* processing or Other */
    case 1: return condition | 0x02800000 | (word & 0x001FF01F);           /* ADD of a small constant */
    case 2: return condition | 0x0A000000 | ((word % 9 - 4) & 0x00FFFFFF); /* branch nearby */
    case 3: case 4: return condition | 0x08000000 | (word & 0x01BFFFFF);   /* block */
    default: return condition | 0x04000000 | (word & 0x01FFF01F);                   /* single */
    }
}

/* The cycle on memory scrambled but for `bytes` at `address` and the word that is fetched: is the core the same? */
static int only_reads(const uint32_t *before, const uint8_t *memory_before, uint32_t bytes, uint32_t address)
{
    uint8_t scrambled[LENGTH];
    uint32_t other[SLOT_CORE_WORDS];
    uint64_t used;
    const uint32_t pc = before[SLOT_CORE_PC];
    for (uint32_t at = 0; at < LENGTH; at++) {
        const int loaded = bytes == 1 ? at == address : bytes == 4 && at / 4 == address / 4;
        const int fetched = before[SLOT_CORE_PHASE] < SLOT_PHASE_STEP2 && at / 4 == pc / 4;
        scrambled[at] = loaded || fetched ? memory_before[at] : (uint8_t)random_word();
    }
    memcpy(other, before, sizeof other);
    slot_core_run(other, scrambled, LENGTH, 1, &used);
    return memcmp(other, core, sizeof other) == 0;
}

static void watched_cycle(unsigned *stores, unsigned *loads)
{
    uint32_t before[SLOT_CORE_WORDS], at, from;
    uint8_t expected[LENGTH];
    uint32_t where = 99;
    const uint32_t stored = coming(0, &at), loaded = coming(1, &from), told = slot_core_store(core, &where);
    so(told == stored, "slot_core_store tells the bytes of the coming cycle", core[SLOT_CORE_IX]);
    so(where == (stored == 0 ? 0 : stored == 1 ? at : at & ~3u), "and where they are stored", where);
    if (stored != 0) {
        put(at & ~3u, random_word()); /* so that a store of the value that is there shows too */
        (*stores)++;
    }
    if (loaded != 0) {
        put(from & ~3u, random_word()); /* a device's answer */
        (*loads)++;
    }
    memcpy(expected, memory, LENGTH);
    memcpy(before, core, sizeof before);
    if (stored == 1) {
        expected[at] = (uint8_t)core[SLOT_CORE_DATUM];
    } else if (stored == 4) {
        for (uint32_t i = 0; i < 4; i++) {
            expected[(at & ~3u) + i] = (uint8_t)(core[SLOT_CORE_DATUM] >> 8 * i);
        }
    }
    const uint32_t answer = run(1);
    so(memcmp(expected, memory, LENGTH) == 0, "the coming cycle stores exactly what the header says", before[SLOT_CORE_IX]);
    if (stored != 0 || loaded != 0) {
        so(answer == SLOT_OK, "a cycle that stores or loads finds no stop", answer);
    }
    so(only_reads(before, stored != 0 ? expected : memory, loaded, from), "the coming cycle reads exactly what the header says", before[SLOT_CORE_IX]);
    if (core[SLOT_CORE_PHASE] == SLOT_PHASE_STEP1) {
        const uint64_t together = count(SLOT_CORE_SUM_N) + count(SLOT_CORE_SUM_S) + count(SLOT_CORE_SUM_I);
        so(together == count(SLOT_CORE_CYCLES), "at a boundary N + S + I is CYCLES", before[SLOT_CORE_IX]);
    } else {
        const int kept = memcmp(before + SLOT_CORE_SUM_N, core + SLOT_CORE_SUM_N, SUM_WORDS * sizeof *core) == 0;
        so(kept, "the sums rise at boundaries alone", before[SLOT_CORE_IX]);
    }
    if (loaded == 4) {
        const uint32_t turn = from % 4 * 8, word = word_at(memory, from & ~3u);
        so(core[SLOT_CORE_DATUM] == (turn == 0 ? word : word >> turn | word << (32 - turn)), "a load's word is in DATUM after its cycle", core[SLOT_CORE_DATUM]);
    }
}

static void watched_images(void)
{
    unsigned stores = 0, loads = 0;
    for (unsigned image = 0; image < IMAGES; image++) {
        uint32_t registers[15], words[LENGTH / 4];
        for (size_t k = 0; k < 15; k++) {
            registers[k] = random_word() % LENGTH;
        }
        for (size_t k = 0; k < LENGTH / 4; k++) {
            words[k] = random_instruction();
        }
        begin(words, LENGTH / 4, registers, random_word() % 16);
        for (unsigned cycle = 0; cycle < CYCLES && core[SLOT_CORE_STOP] == 0; cycle++) {
            watched_cycle(&stores, &loads);
        }
    }
    so(stores > 10000 && loads > 10000, "there were stores and loads enough", stores);
    printf("watched: %u stores, %u loads\n", stores, loads);
}

/* ---- stores and the rate */

enum { RATED = 5000 };

struct times { uint64_t first, last, least, greatest; };

static struct { uint64_t stores, bits, first_bits; struct times cycles, ticks; } seen;

static uint64_t coming_tick; /* of the coming cycle's store, if it stores */

static void timed(struct times *t, uint64_t at)
{
    const uint64_t gap = at - t->last;
    if (seen.stores == 0) {
        t->first = at;
    } else {
        t->least = seen.stores == 1 || gap < t->least ? gap : t->least;
        t->greatest = gap > t->greatest ? gap : t->greatest;
    }
    t->last = at;
}

/* A store that was seen by single cycles, which must be in memory now. */
static void take(uint32_t address, uint32_t bytes, uint32_t datum)
{
    so((bytes == 1 ? memory[address] : word_at(memory, address)) == datum, "a store that was told is in memory", address);
    timed(&seen.cycles, count(SLOT_CORE_CYCLES));
    timed(&seen.ticks, coming_tick);
    seen.first_bits = seen.stores == 0 ? 8 * bytes : seen.first_bits;
    seen.bits += 8 * bytes;
    seen.stores++;
}

/* A cycle, by the header's lines. */
static uint32_t watch_cycle(size_t length, uint32_t from, uint32_t to)
{
    uint64_t used;
    coming_tick = ticks() + 4 + core[SLOT_CORE_PHASE] - SLOT_PHASE_STEP2;
    uint32_t address, bytes = slot_core_store(core, &address), datum = core[SLOT_CORE_DATUM];
    uint32_t answer = slot_core_run(core, memory, length, 1, &used);
    if (answer == SLOT_OK && bytes != 0 && address >= from && address < to) {
        take(address, bytes, bytes == 1 ? datum % 256 : datum);
    }
    return answer;
}

/* Likewise. */
static uint32_t rate(size_t length, uint64_t cycles, uint32_t from, uint32_t to, uint32_t *told)
{
    uint64_t used;
    uint32_t summary[SLOT_RATE] = {0}, answer = SLOT_OK;
    for (uint64_t left = cycles; left > 0 && answer == SLOT_OK; left -= used) {
        answer = slot_rate_run(core, memory, length, left < 1000000 ? left : 1000000, &used, from, to, summary);
    }
    memcpy(told, summary, sizeof summary);
    return answer;
}

/* A number of a summary: its low word and the next. */
static uint64_t number(const uint32_t *summary, size_t low)
{
    return (uint64_t)summary[low + 1] << 32 | summary[low];
}

static int times_are(const uint32_t *summary, size_t first, size_t last, size_t least, size_t greatest, const struct times *t)
{
    return number(summary, first) == t->first && number(summary, last) == t->last && number(summary, least) == t->least && number(summary, greatest) == t->greatest;
}

/* Whether a summary tells what was seen. */
static int tells(const uint32_t *summary)
{
    return number(summary, SLOT_RATE_STORES) == seen.stores && number(summary, SLOT_RATE_BITS) == seen.bits &&
           number(summary, SLOT_RATE_FIRST_BITS) == seen.first_bits &&
           times_are(summary, SLOT_RATE_FIRST_CYCLE, SLOT_RATE_LAST_CYCLE, SLOT_RATE_LEAST_GAP_CYCLES, SLOT_RATE_GREATEST_GAP_CYCLES, &seen.cycles) &&
           times_are(summary, SLOT_RATE_FIRST_TICK, SLOT_RATE_LAST_TICK, SLOT_RATE_LEAST_GAP_TICKS, SLOT_RATE_GREATEST_GAP_TICKS, &seen.ticks);
}

/* MOV R0, #80; MOV R1, #41; STR R1, [R0] twice; STRB R1, [R0, #1]; STMIA R0!, {R1, R2}; SWI. By the tables of durations and ticks the stores are
 * in cycles 6, 8, 10, 12, 13 and in ticks 9, 13, 17, 21, 22. */
static const uint32_t sender[] = {0xE3A00080, 0xE3A01041, 0xE5801000, 0xE5801000, 0xE5C01001, 0xE8A00006, 0xEF000000};

static void start_sender(void)
{
    begin(sender, sizeof sender / sizeof *sender, zeros, 0);
}

static void whole_rate(void)
{
    static const uint32_t all_five[SLOT_RATE] = {5, 0, 136, 0, 32, 0, 6, 0, 13, 0, 1, 0, 2, 0, 9, 0, 22, 0, 1, 0, 4, 0};
    static const uint32_t last_alone[SLOT_RATE] = {1, 0, 32, 0, 32, 0, 13, 0, 13, 0, 0, 0, 0, 0, 22, 0, 22};
    uint32_t told[SLOT_RATE];
    start_sender();
    so(rate(LENGTH, 100, 0x80, 0x88, told) == SLOT_STOP_OTHER && memcmp(told, all_five, sizeof told) == 0, "words, a byte and a block in a summary", told[0]);
    const uint64_t mean = (number(told, SLOT_RATE_BITS) - number(told, SLOT_RATE_FIRST_BITS)) * 8000000 / (number(told, SLOT_RATE_LAST_TICK) - number(told, SLOT_RATE_FIRST_TICK));
    so(mean == 64000000, "the mean rate: 104 bits in 13 ticks of 8 MHz", (uint32_t)mean);
    start_sender();
    so(rate(LENGTH, 100, 0x84, 0x88, told) == SLOT_STOP_OTHER && memcmp(told, last_alone, sizeof told) == 0, "a block across the window's edge; one store has no gap", told[0]);
    start_sender();
    so(rate(LENGTH, 100, 0x7C, 0x80, told) == SLOT_STOP_OTHER && memcmp(told, zeros, sizeof zeros) == 0, "no store at the window's end", told[0]);
    start_sender();
    so(rate(LENGTH, 11, 0x80, 0x88, told) == SLOT_OK && number(told, SLOT_RATE_STORES) == 5, "as many cycles as asked", told[0]);
    start_sender();
    so(rate(LENGTH, 10, 0x80, 0x88, told) == SLOT_OK && number(told, SLOT_RATE_STORES) == 4, "and none more", told[0]);
}

/* Sets a number of a summary. */
static void set_number(uint32_t *summary, size_t low, uint64_t value)
{
    summary[low] = (uint32_t)value;
    summary[low + 1] = (uint32_t)(value >> 32);
}

/* One more store, into whatever summary there is. */
static void further(uint32_t *summary)
{
    uint64_t used;
    start_sender();
    so(slot_rate_run(core, memory, LENGTH, 4, &used, 0x80, 0x84, summary) == SLOT_OK && used == 4, "the first store's cycle", (uint32_t)used);
}

static void odd_summaries(void)
{
    uint32_t summary[SLOT_RATE];
    memset(summary, 0xFF, sizeof summary);
    further(summary);
    so(number(summary, SLOT_RATE_STORES) == UINT64_MAX && number(summary, SLOT_RATE_BITS) == UINT64_MAX, "counts stay at 2^64-1", 0);
    so(number(summary, SLOT_RATE_FIRST_BITS) == UINT64_MAX && number(summary, SLOT_RATE_FIRST_CYCLE) == UINT64_MAX && number(summary, SLOT_RATE_FIRST_TICK) == UINT64_MAX, "what is told of the first store stays", 0);
    so(number(summary, SLOT_RATE_LAST_CYCLE) == 6 && number(summary, SLOT_RATE_LAST_TICK) == 9, "the last store is the last", 0);
    so(number(summary, SLOT_RATE_LEAST_GAP_CYCLES) == 0 && number(summary, SLOT_RATE_LEAST_GAP_TICKS) == 0, "a gap below 0 is 0", 0);
    so(number(summary, SLOT_RATE_GREATEST_GAP_CYCLES) == UINT64_MAX && number(summary, SLOT_RATE_GREATEST_GAP_TICKS) == UINT64_MAX, "and not the greatest", 0);
    memset(summary, 0, sizeof summary);
    set_number(summary, SLOT_RATE_STORES, UINT64_C(0xFFFFFFFF));
    set_number(summary, SLOT_RATE_BITS, UINT64_MAX - 32);
    further(summary);
    so(number(summary, SLOT_RATE_STORES) == UINT64_C(1) << 32 && number(summary, SLOT_RATE_BITS) == UINT64_MAX, "a count rises into its high word", summary[1]);
}

/* The call on this window is refused with the number, and changes nothing. */
static void rate_refused(size_t length, uint64_t budget, uint32_t from, uint32_t to, uint32_t refusal, const char *claim)
{
    uint32_t summary[SLOT_RATE], summary_before[SLOT_RATE], before[SLOT_CORE_WORDS];
    uint8_t memory_before[LENGTH];
    uint64_t used = 99;
    memset(summary, 0xA5, sizeof summary);
    memcpy(summary_before, summary, sizeof summary);
    memcpy(before, core, sizeof before);
    memcpy(memory_before, memory, LENGTH);
    so(slot_rate_run(core, memory, length, budget, &used, from, to, summary) == refusal && used == 0, claim, from);
    so(memcmp(before, core, sizeof before) == 0 && memcmp(memory_before, memory, LENGTH) == 0 && memcmp(summary_before, summary, sizeof summary) == 0, "a refused call changes nothing", refusal);
}

static void rate_refusals(void)
{
    static const uint32_t bad_windows[][2] = {
        {2, 8}, {1, 8}, {0, 6}, {0, 255}, {8, 8}, {8, 4}, {0, 260}, {252, 260}, {256, 260}, {0, 0xFFFFFFFC}, {0xFFFFFFFC, 0}, {0, 0}, {256, 256}, {0x80000000, 0x80000004},
    };
    static const uint32_t good_windows[][2] = {{0, 256}, {252, 256}, {0, 4}};
    uint64_t used = 99;
    uint32_t summary[SLOT_RATE] = {0};
    for (size_t i = 0; i < sizeof bad_windows / sizeof *bad_windows; i++) {
        start_sender();
        rate_refused(LENGTH, 5, bad_windows[i][0], bad_windows[i][1], SLOT_BAD_WINDOW, "58 is a window off a word, empty, or outside memory");
    }
    for (size_t i = 0; i < sizeof good_windows / sizeof *good_windows; i++) {
        start_sender();
        so(slot_rate_run(core, memory, LENGTH, 5, &used, good_windows[i][0], good_windows[i][1], summary) == SLOT_OK && used == 5, "a window of whole words in memory", good_windows[i][0]);
    }
    start_sender();
    core[SLOT_CORE_CYCLES] = 0xFFFFFFFB;
    core[SLOT_CORE_CYCLES_HIGH] = 0xFF;
    rate_refused(LENGTH, 5, 2, 8, SLOT_BAD_WINDOW, "58 where the run would be done");
    rate_refused(LENGTH, 6, 2, 8, SLOT_TOO_MANY, "13 before 58");
    rate_refused(LENGTH, 1000001, 2, 8, SLOT_BAD_BUDGET, "3 before 13");
    core[SLOT_CORE_FLAGS] = 16;
    rate_refused(LENGTH, 1000001, 2, 8, SLOT_BAD_RECORD, "11 before 3");
    core[SLOT_CORE_FLAGS] = 0;
    core[SLOT_CORE_IX_VALID] = 2;
    rate_refused(LENGTH, 1000001, 2, 8, SLOT_BAD_RECORD, "11 of an array that stands for no core");
    rate_refused(LENGTH - 4, 1000001, 2, 8, SLOT_OTHER_MEMORY, "12 before 11");
    start_sender();
    so(run(100) == SLOT_STOP_OTHER, "a stop is held", 0);
    rate_refused(LENGTH, 5, 2, 8, SLOT_BAD_WINDOW, "58 before a stop held is answered");
    rate_refused(LENGTH, 5, 0, 8, SLOT_STOP_OTHER, "a stop held is answered, and changes nothing else");
}

/* What is told where the array stands for no core, or holds a stop. */
static void odd_stores(void)
{
    static const size_t marks[] = {SLOT_CORE_IR1_VALID, SLOT_CORE_IR2_VALID, SLOT_CORE_IX_VALID};
    uint32_t address = 99, before[SLOT_CORE_WORDS];
    start_sender();
    run(3);
    so(slot_core_store(core, &address) == 4 && address == 0x80, "the first store comes", address);
    core[SLOT_CORE_ADDRESS] = 0x83;
    so(slot_core_store(core, &address) == 4 && address == 0x80, "a word's address has its low two bits cleared", address);
    core[SLOT_CORE_FLAGS] = 16;
    so(slot_core_store(core, &address) == 4 && address == 0x80, "what else is bad is not looked at", address);
    memcpy(before, core, sizeof before);
    for (uint32_t stop = SLOT_STOP_FIRST; stop <= SLOT_STOP_LAST; stop++) {
        address = 99;
        core[SLOT_CORE_STOP] = stop;
        so(slot_core_store(core, &address) == 0 && address == 0, "0 and 0 of a core that holds a stop", stop);
    }
    memcpy(core, before, sizeof before);
    for (size_t i = 0; i < sizeof marks / sizeof *marks; i++) {
        address = 99;
        core[marks[i]] = 2;
        so(slot_core_store(core, &address) == 0 && address == 0, "0 and 0 of an array that stands for no core", (uint32_t)marks[i]);
        memcpy(core, before, sizeof before);
    }
}

/* Random images and windows: runs split at random leave core, memory and summary as single cycles do. */
static void rated_images(void)
{
    uint64_t stores = 0;
    for (unsigned image = 0; image < RATED; image++) {
        uint32_t registers[15], words[LENGTH / 4], started[SLOT_CORE_WORDS], there[SLOT_CORE_WORDS], summary[SLOT_RATE], answer = SLOT_OK;
        uint8_t bytes[LENGTH], bytes_there[LENGTH];
        const uint32_t from = random_word() % 64 * 4, to = from + 4 + random_word() % (64 - from / 4) * 4, most = random_word() % CYCLES;
        for (size_t k = 0; k < 15; k++) {
            registers[k] = random_word() % LENGTH;
        }
        for (size_t k = 0; k < LENGTH / 4; k++) {
            words[k] = random_instruction();
        }
        begin(words, LENGTH / 4, registers, random_word() % 16);
        memcpy(started, core, sizeof started);
        memcpy(bytes, memory, LENGTH);
        memset(&seen, 0, sizeof seen);
        for (uint32_t cycle = 0; cycle < most && answer == SLOT_OK; cycle++) {
            answer = watch_cycle(LENGTH, from, to);
        }
        memcpy(there, core, sizeof there);
        memcpy(bytes_there, memory, LENGTH);
        memcpy(core, started, sizeof started);
        memcpy(memory, bytes, LENGTH);
        memset(summary, 0xA5, sizeof summary);
        set_number(summary, SLOT_RATE_STORES, 0); /* so that nothing else of it is looked at */
        uint32_t rated = SLOT_OK;
        uint64_t used = 0;
        for (uint64_t left = most; left > 0 && rated == SLOT_OK; left -= used) {
            rated = slot_rate_run(core, memory, LENGTH, random_word() % (left + 1), &used, from, to, summary);
        }
        so(rated == answer && memcmp(core, there, sizeof there) == 0 && memcmp(memory, bytes_there, LENGTH) == 0, "a watched run, split, ends as single cycles do", image);
        so(seen.stores == 0 ? number(summary, SLOT_RATE_STORES) == 0 && summary[SLOT_RATE_BITS] == 0xA5A5A5A5 : tells(summary), "and its summary is theirs", image);
        stores += seen.stores;
    }
    so(stores > 4000, "there were stores into windows enough", (uint32_t)stores);
    printf("rated: %u stores into windows\n", (unsigned)stores);
}

/* ---- images as Intel HEX */

enum { MOST = 65536, ROOM = 1 << 18, JUNK = 0xA5, BEYOND = 8 };

#define DATA ":0400100001020304E2"
#define END ":00000001FF"

static const char upper_case[] = "0123456789ABCDEF", lower_case[] = "0123456789abcdef";
static uint8_t image[MOST + BEYOND], lent[MOST + 2 * BEYOND]; /* lent memory, and junk behind it */
static char hex[ROOM], hex_before[ROOM];
static size_t hex_length;

static int all(const uint8_t *bytes, size_t n, uint8_t value)
{
    for (size_t i = 0; i < n; i++) {
        if (bytes[i] != value) {
            return 0;
        }
    }
    return 1;
}

static void add(const char *text)
{
    memcpy(hex + hex_length, text, strlen(text));
    hex_length += strlen(text);
}

static void set(const char *text)
{
    hex_length = 0;
    add(text);
}

static void add_byte(const char *digits, unsigned byte)
{
    hex[hex_length++] = digits[byte / 16];
    hex[hex_length++] = digits[byte % 16];
}

/* A record, without its line's end. */
static void add_record(const char *digits, unsigned type, unsigned address, const uint8_t *data, unsigned n)
{
    unsigned sum = n + address / 256 + address % 256 + type;
    add(":");
    add_byte(digits, n);
    add_byte(digits, address / 256);
    add_byte(digits, address % 256);
    add_byte(digits, type);
    for (unsigned i = 0; i < n; i++) {
        add_byte(digits, data[i]);
        sum += data[i];
    }
    add_byte(digits, (256 - sum % 256) % 256);
}

/* The text, read into so many bytes of junk. */
static uint32_t read_hex(size_t length)
{
    memset(lent, JUNK, length + BEYOND);
    memcpy(hex_before, hex, hex_length);
    const uint32_t answer = slot_hex_read((const uint8_t *)hex, hex_length, lent, length);
    so(memcmp(hex_before, hex, hex_length) == 0, "a text is not written to", answer);
    so(all(lent + length, BEYOND, JUNK), "nothing behind the memory is written to", answer);
    return answer;
}

static void so_refused(uint32_t number, size_t length, const char *claim)
{
    const uint32_t answer = read_hex(length);
    so(answer == number && all(lent, length, 0), claim, answer);
}

static void refused(const char *text, uint32_t number, const char *claim)
{
    set(text);
    so_refused(number, LENGTH, claim);
}

/* These four bytes, the first one highest, are at 10, and all others are 0. */
static void reads(const char *text, uint32_t four, const char *claim)
{
    uint8_t expected[LENGTH] = {0};
    for (unsigned i = 0; i < 4; i++) {
        expected[0x10 + i] = (uint8_t)(four >> (24 - 8 * i));
    }
    set(text);
    const uint32_t answer = read_hex(LENGTH);
    so(answer == SLOT_OK && memcmp(lent, expected, LENGTH) == 0, claim, answer);
}

static void read_texts(void)
{
    reads(DATA "\n" END "\n", 0x01020304, "lines end in LF");
    reads(DATA "\r\n" END "\r\n", 0x01020304, "lines end in CR LF");
    reads(DATA "\r\n" END "\n", 0x01020304, "lines end in either");
    reads(DATA "\n" END, 0x01020304, "a line ends with the text");
    reads(END, 0, "a byte that no record names is 0");
    reads(":04001000ABCDEFFA8B\n" END, 0xABCDEFFA, "digits of upper case");
    reads(":04001000abcdeffa8b\n:00000001ff", 0xABCDEFFA, "digits of lower case");
    reads(":04001000aBCdeFfA8b\n:00000001fF", 0xABCDEFFA, "digits of both cases");
    reads(":03001000E3A0402A\n" END, 0xE3A04000, "the header's data record");
    reads(DATA "\n:02001200AABB87\n" END, 0x0102AABB, "a byte that is named twice takes the later");
    reads(":02001200AABB87\n" DATA "\n" END, 0x01020304, "the same the other way");
    reads(DATA "\n:00001000F0\n:00FFFF0002\n" END, 0x01020304, "a record of no data names no byte, wherever it stands");
    reads(DATA "\n" END "\n\n:\n" DATA "\n:01FFFF0001FF\n\r", 0x01020304, "what stands behind the end record's line is ignored");
    reads(":020000040000FA\n" DATA "\n" END, 0x01020304, "upper 0000");
    reads(":020000040001F9\n:020000040000FA\n" DATA "\n" END, 0x01020304, "the last type 04 says upper");
    reads(DATA "\n:020000040001F9\n" END, 0x01020304, "upper is 0 at first");
    reads(DATA "\n:02000004FFFFFC\n:0000000000\n:00FFFF0002\n" END, 0x01020304, "no data, far up");
    refused("", SLOT_HEX_NO_END, "43 is an empty text");
    so(slot_hex_read((const uint8_t *)hex + ROOM, 0, lent, LENGTH) == SLOT_HEX_NO_END, "of which no byte is read", 0);
    refused(DATA, SLOT_HEX_NO_END, "43 is a text without an end record");
    refused(DATA "\n", SLOT_HEX_NO_END, "where nothing stands behind the last line's end, that is no line");
    refused(DATA "\r\n", SLOT_HEX_NO_END, "nor where it is CR LF");
    refused(DATA "\n:020000040001F9\n", SLOT_HEX_NO_END, "43 behind a type 04");
}

static void unsound_lines(void)
{
    refused("\n", SLOT_HEX_UNSOUND, "41 is an empty line");
    refused("\r\n", SLOT_HEX_UNSOUND, "41 is an empty line that ends in CR LF");
    refused("\n" DATA "\n" END "\n", SLOT_HEX_UNSOUND, "41 is an empty line before all");
    refused(DATA "\n\n" END "\n", SLOT_HEX_UNSOUND, "41 is an empty line between");
    refused(DATA "\r\n\r\n" END "\r\n", SLOT_HEX_UNSOUND, "41 is an empty line between, with CR LF");
    refused(DATA "\n\n", SLOT_HEX_UNSOUND, "41 is an empty line at the end");
    refused("\r", SLOT_HEX_UNSOUND, "a CR that no LF follows is a byte of its line");
    refused(DATA "\n\r", SLOT_HEX_UNSOUND, "and so is one at the end");
    refused(END "\r", SLOT_HEX_UNSOUND, "and one behind the last record");
    refused(END "\r\r\n", SLOT_HEX_UNSOUND, "and one before the last one's CR");
    refused(DATA "\r" END "\r\n", SLOT_HEX_UNSOUND, "and one between records");
    refused("\r" END "\n", SLOT_HEX_UNSOUND, "and one before a record");
    refused(DATA "\n\r" END "\n", SLOT_HEX_UNSOUND, "and one behind an LF");
    refused(" " END, SLOT_HEX_UNSOUND, "41 is a space before a record");
    refused(END " \n", SLOT_HEX_UNSOUND, "41 is a space behind one");
    refused(END "\t\r\n", SLOT_HEX_UNSOUND, "41 is a tab behind one");
    refused(END END "\n", SLOT_HEX_UNSOUND, "41 is two records in a line");
    refused("00000001FF\n", SLOT_HEX_UNSOUND, "41 is a record without a colon");
    refused(":", SLOT_HEX_UNSOUND, "41 is a colon alone");
    refused(":0", SLOT_HEX_UNSOUND, "41 is half a count");
    refused(":00", SLOT_HEX_UNSOUND, "41 is a count alone");
    refused(":00000001F", SLOT_HEX_UNSOUND, "41 is a digit less");
    refused(":00000001FF0", SLOT_HEX_UNSOUND, "41 is a digit more");
    refused(":00000001FF00", SLOT_HEX_UNSOUND, "41 is a pair more");
    refused(":0300100001020304E3\n" END, SLOT_HEX_UNSOUND, "41 is more data than the count says");
    refused(":0500100001020304E1\n" END, SLOT_HEX_UNSOUND, "41 is less");
    refused(":FF", SLOT_HEX_UNSOUND, "41 is a count of 255 with nothing behind it");
    refused(DATA "\n:00000101FE\n", SLOT_HEX_UNSOUND, "41 is an end with an address");
    refused(DATA "\n:00010001FE\n", SLOT_HEX_UNSOUND, "41 is an end with a high address");
    refused(":020001040000F9\n" END, SLOT_HEX_UNSOUND, "41 is a type 04 with an address");
    refused(":020100040000F9\n" END, SLOT_HEX_UNSOUND, "41 is a type 04 with a high address");
    refused(":0100000400FB\n" END, SLOT_HEX_UNSOUND, "41 is a type 04 of one byte");
    refused(":03000004000000F9\n" END, SLOT_HEX_UNSOUND, "41 is a type 04 of three bytes");
    refused(":020000020000FC\n" END, SLOT_HEX_UNSOUND, "41 is a type 02");
    refused(":0400000300000000F9\n" END, SLOT_HEX_UNSOUND, "41 is a type 03");
    refused(":0400000500000000F7\n" END, SLOT_HEX_UNSOUND, "41 is a type 05");
}

/* Whether the lines are all sound: the text is read, or refused with 41. */
static int sound(void)
{
    const uint32_t answer = read_hex(LENGTH);
    so(answer == SLOT_OK || (answer == SLOT_HEX_UNSOUND && all(lent, LENGTH, 0)), "a line is sound, or refused with 41", answer);
    return answer == SLOT_OK;
}

/* Every type, with no data and with two bytes of it. */
static void types(void)
{
    static const uint8_t two[2] = {0, 0};
    for (unsigned type = 0; type < 256; type++) {
        set("");
        add_record(upper_case, type, 0, two, 0);
        add("\n" END "\n");
        so(sound() == (type == 0 || type == 1), "a type of no data", type);
        set("");
        add_record(upper_case, type, 0, two, 2);
        add("\n" END "\n");
        so(sound() == (type == 0 || type == 4), "a type of two bytes of data", type);
    }
}

/* Every last byte. */
static void sums(void)
{
    for (unsigned sum = 0; sum < 256; sum++) {
        set(":0400100001020304");
        add_byte(upper_case, sum);
        add("\n" END "\n");
        so(sound() == (sum == 0xE2), "all bytes of a record sum to 0 modulo 256", sum);
    }
}

/* Every byte at every place of a line: it stays sound only where the digit is the same. */
static void exchanged(const char *line)
{
    for (size_t at = 0; at < strlen(line); at++) {
        const char *digit = strchr(upper_case, line[at]);
        const char lower = digit == NULL ? line[at] : lower_case[digit - upper_case];
        for (unsigned byte = 0; byte < 256; byte++) {
            set(line);
            add("\n" END "\n");
            hex[at] = (char)byte;
            so(sound() == (hex[at] == line[at] || hex[at] == lower), "a byte of a record exchanged", (uint32_t)at << 8 | byte);
        }
    }
}

/* 42, at these ends of memory, and beyond those of addresses. */
static void outside(void)
{
    static const size_t lengths[] = {16, 20, 256, 4096, 65532, 65536};
    static uint8_t data[255];
    memset(data, 0xEE, sizeof data);
    for (size_t i = 0; i < sizeof lengths / sizeof *lengths; i++) {
        const size_t length = lengths[i];
        const unsigned n = length < sizeof data ? (unsigned)length : (unsigned)sizeof data, last = (unsigned)length - n;
        hex_length = 0;
        add_record(upper_case, 0, last, data, n);
        add("\n" END "\n");
        so(read_hex(length) == SLOT_OK && all(lent, last, 0) && all(lent + last, n, 0xEE), "data up to the length", last);
        hex_length = 0;
        add_record(upper_case, 0, 0, data, 16);
        add("\n");
        add_record(upper_case, 0, last + 1, data, n);
        add("\n" END "\n");
        so_refused(SLOT_HEX_OUTSIDE, length, "42 is a data byte at the length");
        set("");
        add_record(upper_case, 0, 0xFFFF, data, 2);
        add("\n" END "\n");
        so_refused(SLOT_HEX_OUTSIDE, length, "an address does not wrap at 65,536");
        set(":02000004FFFFFC\n");
        add_record(upper_case, 0, 0xFFFF, data, 2);
        add("\n" END "\n");
        so_refused(SLOT_HEX_OUTSIDE, length, "nor at 2^32");
        set(":02000004FFFFFC\n");
        add_record(upper_case, 0, 0xFFF0, data, 32);
        add("\n" END "\n");
        so_refused(SLOT_HEX_OUTSIDE, length, "nor where more bytes are beyond it");
    }
    for (unsigned upper = 1; upper < 65536; upper += upper) {
        const uint8_t two[2] = {(uint8_t)(upper >> 8), (uint8_t)upper};
        set(DATA "\n");
        add_record(upper_case, 4, 0, two, 2);
        add("\n" DATA "\n" END "\n");
        so_refused(SLOT_HEX_OUTSIDE, MOST, "every bit of upper counts, and for the data that follow it");
    }
    refused(":020000040001F9\n" DATA "\n:020000040000FA\n" END, SLOT_HEX_OUTSIDE, "the header's type 04");
    refused(":020000040001F9\n:00001000F0\n" DATA "\n" END, SLOT_HEX_OUTSIDE, "upper stays up to the next type 04");
}

static void orders(void)
{
    static const size_t lengths[] = {0, 4, 12, 15, 17, 18, 19, 255, 65535, 65537, 65540};
    static const char *const texts[] = {"", DATA "\n" END "\n", "\n", DATA "\n", ":01FFFF000100\n"};
    refused(":01FFFF000100\n" END, SLOT_HEX_OUTSIDE, "42 is told where a line is sound");
    refused(":01FFFF000101\n" END, SLOT_HEX_UNSOUND, "41 comes before 42 on one line");
    refused(":01FFFF000100\n:\n", SLOT_HEX_OUTSIDE, "42 comes before the 41 of a later line");
    refused(":\n:01FFFF000100\n", SLOT_HEX_UNSOUND, "41 comes before the 42 of a later line");
    refused(DATA "\n:01FFFF000100\n", SLOT_HEX_OUTSIDE, "42 comes before 43");
    refused(DATA "\n:\n", SLOT_HEX_UNSOUND, "41 comes before 43");
    refused(DATA "\n" DATA "\n:\n" END, SLOT_HEX_UNSOUND, "what was read before a refusal is 0 too");
    for (size_t i = 0; i < sizeof lengths / sizeof *lengths; i++) {
        for (size_t k = 0; k < sizeof texts / sizeof *texts; k++) {
            set(texts[k]);
            const uint32_t answer = read_hex(lengths[i]);
            so(answer == SLOT_BAD_LENGTH && all(lent, lengths[i], JUNK), "1 comes before all, and leaves memory as it was", (uint32_t)lengths[i]);
        }
    }
}

/* A text cut off at each of its bytes. Behind the end record's digits there is the CR LF, and half of it is a byte of the line. */
static void cut_off(void)
{
    static const char whole[] = ":020000040000FA\r\n" DATA "\n:00001000F0\r\n" END "\r\n";
    const size_t least = strlen(whole) - 2;
    for (size_t n = 0; n <= strlen(whole); n++) {
        set(whole);
        hex_length = n;
        const uint32_t answer = read_hex(LENGTH);
        if (n == least || n == least + 2) {
            so(answer == SLOT_OK, "a text with its end record is read", (uint32_t)n);
        } else {
            so((answer == SLOT_HEX_UNSOUND || answer == SLOT_HEX_NO_END) && all(lent, LENGTH, 0), "a text that was cut off is refused", (uint32_t)n);
        }
    }
}

/* Records anywhere and one over another, of any size, case and line's end. */
static void random_texts(void)
{
    static const char *const ends[] = {"\n", "\r\n"};
    for (unsigned round = 0; round < 500; round++) {
        const unsigned length = 16 + 4 * (random_word() % 61);
        uint8_t expected[LENGTH] = {0};
        set("");
        for (unsigned left = random_word() % 24; left > 0; left--) {
            const unsigned n = random_word() % (length < 255 ? length + 1 : 256), address = random_word() % (length - n + 1);
            uint8_t data[255];
            for (unsigned i = 0; i < n; i++) {
                data[i] = (uint8_t)random_word();
            }
            add_record(random_word() % 2 ? upper_case : lower_case, 0, address, data, n);
            add(ends[random_word() % 2]);
            memcpy(expected + address, data, n);
            if (random_word() % 8 == 0) {
                add(":020000040003F7\n:00123400BA\r\n:020000040000fa\n");
            }
        }
        add(END);
        add(ends[random_word() % 2]);
        add(random_word() % 2 ? "" : "and so on");
        const uint32_t answer = read_hex(length);
        so(answer == SLOT_OK && memcmp(lent, expected, length) == 0, "a text of records anywhere", answer);
    }
}

/* One line of the image, which must be this text; the bytes behind it stay. */
static void line_is(size_t length, uint32_t line, const char *text, size_t n, const char *claim)
{
    uint8_t out[SLOT_HEX_LINE + BEYOND];
    uint32_t written = 99;
    memset(out, JUNK, sizeof out);
    const uint32_t answer = slot_hex_line(image, length, line, out, &written);
    so(answer == SLOT_OK && written == n && memcmp(out, text, n) == 0 && all(out + n, sizeof out - n, JUNK), claim, line);
}

/* An image of this length, line by line, then read again. */
static void round_trip(size_t length, uint32_t fill)
{
    static const uint32_t far_lines[] = {2, 3, 16, 4097, 65536, 1u << 28, (1u << 28) + 1, 1u << 31, 0xFFFFFFFE, 0xFFFFFFFF};
    uint32_t line = 0;
    for (size_t at = 0; at < length; at++) {
        image[at] = fill < 256 ? (uint8_t)fill : (uint8_t)random_word();
    }
    memcpy(lent, image, length);
    set("");
    for (size_t at = 0; at < length; at += 16) {
        const size_t begins = hex_length;
        add_record(upper_case, 0, (unsigned)at, image + at, length - at < 16 ? (unsigned)(length - at) : 16);
        add("\n");
        line_is(length, line, hex + begins, hex_length - begins, "a line of data");
        line++;
    }
    line_is(length, line, END "\n", 12, "then the end record");
    add(END "\n");
    line_is(length, line + 1, "", 0, "then nothing");
    for (size_t i = 0; i < sizeof far_lines / sizeof *far_lines; i++) {
        if (far_lines[i] > line) {
            line_is(length, far_lines[i], "", 0, "nor far behind it");
        }
    }
    so(memcmp(lent, image, length) == 0, "memory that is written is not written to", (uint32_t)length);
    so(read_hex(length) == SLOT_OK && memcmp(lent, image, length) == 0, "what was written reads as the same memory", (uint32_t)length);
}

static void round_trips(void)
{
    static const size_t lengths[] = {1020, 1024, 4092, 4096, 32768, 65516, 65520, 65524, 65528, 65532, 65536};
    for (size_t length = 16; length <= 320; length += 4) {
        round_trip(length, 256);
    }
    for (size_t i = 0; i < sizeof lengths / sizeof *lengths; i++) {
        round_trip(lengths[i], 256);
    }
    round_trip(20, 0);
    round_trip(20, 255);
    memset(image, 0, 16);
    line_is(16, 0, ":1000000000000000000000000000000000000000F0\n", SLOT_HEX_LINE, "SLOT_HEX_LINE is a whole line");
    memset(image, 0xAB, 20);
    line_is(20, 1, ":04001000ABABABAB40\n", 20, "a shorter last line");
}

/* 1, for every line. */
static void unwritten(void)
{
    static const size_t lengths[] = {0, 4, 12, 15, 17, 18, 19, 255, 65535, 65537, 65540};
    static const uint32_t some_lines[] = {0, 1, 2, 16, 4096, 4097, 1u << 28, 0xFFFFFFFF};
    for (size_t i = 0; i < sizeof lengths / sizeof *lengths; i++) {
        for (size_t k = 0; k < sizeof some_lines / sizeof *some_lines; k++) {
            uint8_t out[SLOT_HEX_LINE + BEYOND];
            uint32_t written = 99;
            memset(out, JUNK, sizeof out);
            const uint32_t answer = slot_hex_line(image, lengths[i], some_lines[k], out, &written);
            so(answer == SLOT_BAD_LENGTH && written == 0 && all(out, sizeof out, JUNK), "1 for every line, which leaves out as it was", (uint32_t)lengths[i]);
        }
    }
}

/* By the header's lines. */
static void write_file(FILE *file, size_t length)
{
    uint8_t out[SLOT_HEX_LINE];
    uint32_t written;
    for (uint32_t line = 0; slot_hex_line(memory, length, line, out, &written) == SLOT_OK && written > 0; line++) {
        fwrite(out, 1, written, file);
    }
}

/* Likewise. */
static void read_file(FILE *file, const uint32_t *registers, size_t length)
{
    static uint8_t text[1000000];
    size_t text_length = fread(text, 1, sizeof text, file);
    if (slot_hex_read(text, text_length, memory, length) == SLOT_OK) {
        slot_core_start(core, registers, 0, 0, memory, length);
    }
}

static void files(void)
{
    uint8_t before[LENGTH];
    FILE *file = tmpfile();
    so(file != NULL, "there is a file", 0);
    if (file == NULL) {
        return;
    }
    for (size_t at = 0; at < LENGTH; at++) {
        memory[at] = (uint8_t)random_word();
    }
    memcpy(before, memory, LENGTH);
    set("");
    for (unsigned at = 0; at < LENGTH; at += 16) {
        add_record(upper_case, 0, at, memory + at, 16);
        add("\n");
    }
    add(END "\n");
    write_file(file, LENGTH);
    rewind(file);
    so(fread(hex_before, 1, ROOM, file) == hex_length && memcmp(hex, hex_before, hex_length) == 0, "the header's lines write a whole file", 0);
    rewind(file);
    memset(memory, JUNK, LENGTH);
    memset(core, JUNK, sizeof core);
    read_file(file, zeros, LENGTH);
    so(memcmp(memory, before, LENGTH) == 0, "the header's lines read it", 0);
    so(core[SLOT_CORE_LENGTH] == LENGTH && core[SLOT_CORE_PHASE] == SLOT_PHASE_REFILL1 && core[SLOT_CORE_CYCLES] == 0, "and start a core", 0);
    write_file(file, LENGTH - 2);
    so(fgetc(file) == EOF, "a memory of another length makes no file", 0);
    fclose(file);
}

int main(void)
{
    so(slot_abi_2() == SLOT_ABI, "the archive's number is SLOT_ABI", slot_abi_2());
    places();
    plain_places();
    answers();
    long_runs();
    tick_table();
    bad_sums();
    bad_refills();
    changed_under_way();
    settles();
    operations();
    shifts();
    conditions();
    classes();
    multiplies();
    watched_images();
    odd_stores();
    whole_rate();
    odd_summaries();
    rate_refusals();
    rated_images();
    read_texts();
    unsound_lines();
    types();
    sums();
    exchanged(":100010000123456789ABCDEF1032547698BADCFEE8"); /* each digit at both places of a pair */
    exchanged(":020000040000FA");
    exchanged(END);
    outside();
    orders();
    cut_off();
    random_texts();
    round_trips();
    unwritten();
    files();
    printf("%u passed, %u failed\n", passed, failed);
    return failed == 0 ? 0 : 1;
}
