/* The machines of the library slot (archive libslot.a): C11 and C++17, for gcc or clang on x86-64 Linux.
 *
 * A core, a plain machine, a word's record and a summary of stores are arrays of 32-bit words that the caller owns; the
 * calls keep nothing between them, allocate nothing and touch nothing but what they are lent. No pointer may be null, and
 * no array, memory or text of one call may overlap another. Memory is bytes, a word's lowest byte first; its length is 16
 * to 65,536, a multiple of 4.
 *
 * Threads: calls on different arrays and memories may run at once, in any number. One array or memory is one call's at
 * a time.
 *
 * Every call but slot_word_read, slot_core_store and slot_abi_2 answers one of the numbers below.
 *
 * ---- what stands below
 *   version and layout; numbers; a core's array, how to read it between calls, and the ticks of the slot memory; stores
 *   and the rate; a plain machine's array; a word's record; images as Intel HEX; the calls. */
#ifndef SLOT_CORE_H
#define SLOT_CORE_H

#include <stddef.h>
#include <stdint.h>

#ifdef __cplusplus
extern "C" {
#endif

/* ---- version and layout
 *
 * SLOT_ABI numbers the layouts of the arrays and the calls. It rises where an array grows, a place moves or a call
 * changes. Each file that includes this header refers to slot_abi_2, which only an archive of that number has, so a
 * program built with this header and another archive does not link: "undefined reference to `slot_abi_2'". A language
 * without this header refers to slot_abi_2 itself, or looks it up before its first call. It answers the number. */
#define SLOT_VERSION "0.11.0"
#define SLOT_ABI 2
uint32_t slot_abi_2(void);

#if defined(__has_attribute)
#if __has_attribute(retain)
#define SLOT_ABI_KEPT __attribute__((used, retain)) /* also by a linker that drops sections nobody refers to */
#endif
#endif
#if !defined(SLOT_ABI_KEPT)
#define SLOT_ABI_KEPT __attribute__((used))
#endif
static uint32_t (*const slot_abi_wanted)(void) SLOT_ABI_KEPT = slot_abi_2;

/* ---- numbers
 *
 * 0 is done, 1 to 20 are refusals, 21 to 40 are stops, 41 to 43 are refusals of slot_hex_read, 58 is one of slot_rate_run.
 * A refused call changes no array and no memory, but for two: a refused start leaves its array all 0, and a slot_hex_read
 * that is refused with 41 to 43 its memory. A stop is kept in the array, costs no cycle and changes nothing else; later
 * runs and settles answer it again. It is found before the instruction at A does anything, and only where the budget is
 * not yet spent: a run whose last cycle reaches A answers 0, and the next one finds the stop. A settle finds none. */
enum {
    SLOT_OK = 0,             /* done; of a run: the budget is spent; of a settle: the core is on a boundary */
    SLOT_BAD_LENGTH = 1,     /* start, hex_read, hex_line: the memory's length */
    SLOT_BAD_ENTRY = 2,      /* start: the entry is no multiple of 4, or not below the length */
    SLOT_BAD_BUDGET = 3,     /* run, rate_run: a budget above 1,000,000 */
    SLOT_BAD_FLAGS = 4,      /* start: flags above 15 */
    SLOT_NO_WORD = 5,        /* write: the array stands for no record, or the record has no word */
    SLOT_BAD_RECORD = 11,    /* run, settle, rate_run: the array stands for no core, or for none that a run can be in */
    SLOT_OTHER_MEMORY = 12,  /* run, settle, rate_run: memory of another length than the array's; tested before 11 */
    SLOT_TOO_MANY = 13,      /* run, settle, rate_run: the budget, or the cycles left, would carry the cycles past 2^40; see
                                "long runs" below */
    SLOT_STOP_NO_WORD = 21,  /* no word at A: the program ran past the end of memory */
    SLOT_STOP_OTHER = 22,    /* the word at A is SLOT_CLASS_OTHER: a SWI, as programs end in, or one this core has not */
    SLOT_STOP_FORBIDDEN = 23, /* the word at A is a form that the rules forbid, such as a block of no registers */
    SLOT_STOP_OUTSIDE = 24,  /* the instruction at A would load or store outside memory */
    SLOT_STOP_FETCHED = 25,  /* the instruction at A would store to the word at A+4 or A+8, which are fetched already */
    SLOT_STOP_FIRST = 21,
    SLOT_STOP_LAST = 25,
    SLOT_HEX_UNSOUND = 41,   /* hex_read: a line is no sound record of type 00, 01 or 04 */
    SLOT_HEX_OUTSIDE = 42,   /* hex_read: a line has a data byte at or above the memory's length */
    SLOT_HEX_NO_END = 43,    /* hex_read: the text ends without an end record */
    SLOT_BAD_WINDOW = 58     /* rate_run: the window is off a word, empty, or ends above the memory's length */
};

/* ---- a core: the index of each word */
enum {
    SLOT_CORE_R0 = 0,           /* R0 to R14 */
    SLOT_CORE_PC = 15,
    SLOT_CORE_FLAGS = 16,       /* N, Z, C, V in bits 3 to 0 */
    SLOT_CORE_IR1 = 17,         /* a fetched word, then 1; or, where it is blank, 0 and 0 */
    SLOT_CORE_IR1_VALID = 18,
    SLOT_CORE_IR2 = 19,
    SLOT_CORE_IR2_VALID = 20,
    SLOT_CORE_IX = 21,          /* the word of the instruction under way */
    SLOT_CORE_IX_VALID = 22,
    SLOT_CORE_PHASE = 23,       /* what the coming cycle is: SLOT_PHASE_.., or 1 more than the number of its step */
    SLOT_CORE_ADDRESS = 24,     /* the next address that the steps left load from or store to; 0 where there is none */
    SLOT_CORE_DATUM = 25,       /* what the coming cycle stores, or what it writes to a register, loaded; else 0 */
    SLOT_CORE_BASE = 26,        /* the changed base that the coming cycle writes back; else 0 */
    SLOT_CORE_CYCLES = 27,      /* counts of 64 bits: the low word, then the high one */
    SLOT_CORE_CYCLES_HIGH = 28,
    SLOT_CORE_RETIRED = 29,     /* instructions done, those whose condition failed too */
    SLOT_CORE_RETIRED_HIGH = 30,
    SLOT_CORE_STOP = 31,        /* 0, or the stop that is held */
    SLOT_CORE_LENGTH = 32,      /* the memory's length */
    SLOT_CORE_SUM_N = 33,       /* non-sequential cycles, a count like CYCLES; see "ticks" below */
    SLOT_CORE_SUM_N_HIGH = 34,
    SLOT_CORE_SUM_S = 35,       /* sequential cycles */
    SLOT_CORE_SUM_S_HIGH = 36,
    SLOT_CORE_SUM_I = 37,       /* internal cycles */
    SLOT_CORE_SUM_I_HIGH = 38,
    SLOT_CORE_WORDS = 39
};
enum {
    SLOT_PHASE_STEP1 = 0,   /* a boundary: the coming cycle is the first step of the instruction at A */
    SLOT_PHASE_REFILL1 = 1, /* the two cycles that fetch anew, after a start and wherever the counter was stored */
    SLOT_PHASE_REFILL2 = 2,
    SLOT_PHASE_STEP2 = 3    /* step 2; step k is k + 1 */
};

/* Reading a core between calls
 *
 * A boundary is PHASE 0. There, and only there, the core is the plain machine between two instructions: R0 to R14,
 * flags and memory are those of all instructions up to it, and A, the address of the next, is PC-8 modulo 2^26.
 * Between boundaries R0 to R14 are those of an instruction half done: after step 2 of a load its base is written and
 * its register is not, a block load has the lower of its registers and not the higher. A is PC-12 in steps 2 and up.
 * From a start a boundary is at most 19 cycles away. slot_core_settle goes on to the next: call it before R0 to R14 are read.
 *
 * Does the coming cycle store? slot_core_store tells; see "stores and the rate" below.
 *
 * Does the coming cycle load? With no stop held, only where PHASE is SLOT_PHASE_STEP2 or above and IX is a load:
 *
 *     slot_word_read(core[SLOT_CORE_IX], record);
 *     record[SLOT_RECORD_L] == 1, and record[SLOT_RECORD_CLASS] is SLOT_CLASS_SINGLE or SLOT_CLASS_BLOCK
 *
 * A SLOT_CLASS_SINGLE reads in step 2, where PHASE is SLOT_PHASE_STEP2; a SLOT_CLASS_BLOCK of n registers reads a word
 * in each of steps 2 to n+1, where PHASE is SLOT_PHASE_STEP2 to n+2. What it reads is at ADDRESS, and is taken from
 * memory in that cycle.
 *
 * A host may change memory between calls: it is the caller's. So a device can answer a load, by putting its word at
 * ADDRESS before the call that does the reading cycle. What is fetched stays as it was fetched: at a boundary IX and IR2
 * hold the word at A, IR1 the one at A+4, and they are executed as they stand, whatever memory holds by then; the word
 * at A+8 is fetched in the coming cycle. In steps 2 and up IX holds the word at A, IR2 that at A+4, IR1 that at A+8.
 *
 * A host may change the array as well; a run or settle refuses with 11 what no core can be in, and goes on from the
 * rest as it stands. Such are sums (SUM_N, SUM_S, SUM_I) that together are above CYCLES, and a refill with a word in IX
 * that cannot store the counter: one of SLOT_CONDITION_NV, of a form that the rules forbid, or that neither branches nor
 * writes R15. (A blank IX is the start's refill.) A call on a changed array may itself leave one that the next call
 * refuses: where PHASE is not 0 the sums still lack what the instruction under way adds, and may be above CYCLES with it.
 *
 * Ticks of the slot memory. It takes two ticks for a non-sequential access (N), and one for a sequential (S) or internal
 * (I) cycle. SUM_N, SUM_S and SUM_I count the cycles of each kind since the start, each in a low and a high word:
 *
 *     uint64_t n = (uint64_t)core[SLOT_CORE_SUM_N_HIGH] << 32 | core[SLOT_CORE_SUM_N];
 *     uint64_t s = (uint64_t)core[SLOT_CORE_SUM_S_HIGH] << 32 | core[SLOT_CORE_SUM_S];
 *     uint64_t i = (uint64_t)core[SLOT_CORE_SUM_I_HIGH] << 32 | core[SLOT_CORE_SUM_I];
 *     uint64_t ticks = 2 * n + s + i;
 *
 * Read them at a boundary: slot_core_settle goes on to the next, and a core that holds a stop is on one. There, from a
 * start, N + S + I is CYCLES. A rate per tick, from one boundary to another, takes the difference of the two readings.
 * Between boundaries the ticks leave out the instruction under way: all its cycles join the sums in its last one, where
 * RETIRED rises too. An instruction adds
 *
 *     where its condition failed           S
 *     processing                           S, with a shift by register S + I
 *     single load                          S + N + I
 *     single store                         2N
 *     block load of n registers            nS + N + I
 *     block store of n registers           (n-1)S + 2N
 *     branch                               2S + N
 *     multiply of 1 + m cycles             S + mI
 *     processing or load that writes R15   S + N more, for its refill
 *
 * and the start's refill S + N, in the second cycle.
 *
 * Long runs. CYCLES goes up to 2^40, 38 hours at 8 MHz; a run that might pass it is refused with 13 and changes
 * nothing. To go on, at a boundary (slot_core_settle): add CYCLES, RETIRED and the three sums to totals of your own, set
 * all five, and their high words, to 0, and call again. Sums left as they are would be above CYCLES, and the call be
 * refused with 11. Nothing else in a core depends on the five. */

/* ---- stores and the rate
 *
 * To watch addresses, run with a budget of 1, and before each run ask slot_core_store what the cycle to come stores:
 *
 *     uint32_t address, bytes = slot_core_store(core, &address), datum = core[SLOT_CORE_DATUM];
 *     uint32_t answer = slot_core_run(core, memory, length, 1, &used);
 *     if (answer == SLOT_OK && bytes != 0 && address >= from && address < to) {
 *         take(address, bytes, bytes == 1 ? datum % 256 : datum);
 *     }
 *
 * `take`, yours, sees every store so, also one of the value that is there already. `bytes` is 4 for a word, whose address
 * has its low two bits cleared, 1 for a byte, whose address is its own, and 0 where the cycle stores nothing. A block
 * store comes up once for each of its words, in a cycle each. examples/embed.c watches a link buffer in this way.
 *
 * For the data rate of a long run let slot_rate_run watch. It is slot_core_run, and folds each store whose address lies in
 * the window from `from` up to, and without, `to` into a summary: an array of SLOT_RATE words that the caller keeps from
 * call to call. All 0 it is the summary of no stores; begin with that.
 *
 *     uint32_t summary[SLOT_RATE] = {0}, answer = SLOT_OK;
 *     for (uint64_t left = cycles; left > 0 && answer == SLOT_OK; left -= used) {
 *         answer = slot_rate_run(core, memory, length, left < 1000000 ? left : 1000000, &used, from, to, summary);
 *     }
 *
 * It does not matter how a run is split: calls of any budgets leave the summary that one call would. A summary is eleven
 * numbers of 64 bits, each as its low word and then, at the name with _HIGH, its high one. The cycle of a store is what
 * CYCLES is after the cycle that writes. Its tick is the ticks above, up to and with the write: the start's 3, those of
 * all instructions before, 2 + 2 for a store's two N, and 1 more for each word of a block store before this one. Cycles
 * and ticks each stand for themselves: the least gap in cycles and the least in ticks may be those of different stores.
 *
 * A gap is the time from a store to the next. It is told as 0 where the next one's time is below: where the counts were
 * set back, as for a long run. The gaps are 0 before the second store. Where STORES is 0 nothing else of the array is
 * looked at. STORES and BITS stay at 2^64-1 where they would pass it.
 *
 * The mean rate in bits a second, where so many ticks are a second, is of the bits after the first store:
 *
 *     (BITS - FIRST_BITS) * ticks_a_second / (LAST_TICK - FIRST_TICK)
 *
 * A mean is not yet the option to order: a pause lowers it, and it does not say what a buffer must hold. The command
 * ./rate works out the option from the stores; docs/RATE.md explains how. */
enum {
    SLOT_RATE_STORES = 0,                   /* stores: a word or a byte each */
    SLOT_RATE_STORES_HIGH = 1,
    SLOT_RATE_BITS = 2,                     /* 32 for a word, 8 for a byte */
    SLOT_RATE_BITS_HIGH = 3,
    SLOT_RATE_FIRST_BITS = 4,               /* those of the first store */
    SLOT_RATE_FIRST_BITS_HIGH = 5,
    SLOT_RATE_FIRST_CYCLE = 6,
    SLOT_RATE_FIRST_CYCLE_HIGH = 7,
    SLOT_RATE_LAST_CYCLE = 8,
    SLOT_RATE_LAST_CYCLE_HIGH = 9,
    SLOT_RATE_LEAST_GAP_CYCLES = 10,        /* from a store to the next */
    SLOT_RATE_LEAST_GAP_CYCLES_HIGH = 11,
    SLOT_RATE_GREATEST_GAP_CYCLES = 12,
    SLOT_RATE_GREATEST_GAP_CYCLES_HIGH = 13,
    SLOT_RATE_FIRST_TICK = 14,
    SLOT_RATE_FIRST_TICK_HIGH = 15,
    SLOT_RATE_LAST_TICK = 16,
    SLOT_RATE_LAST_TICK_HIGH = 17,
    SLOT_RATE_LEAST_GAP_TICKS = 18,
    SLOT_RATE_LEAST_GAP_TICKS_HIGH = 19,
    SLOT_RATE_GREATEST_GAP_TICKS = 20,
    SLOT_RATE_GREATEST_GAP_TICKS_HIGH = 21,
    SLOT_RATE = 22                          /* the words of a summary */
};

/* ---- a plain machine: the index of each word */
enum {
    SLOT_PLAIN_R0 = 0,          /* R0 to R14 */
    SLOT_PLAIN_A = 15,          /* the address of the next instruction */
    SLOT_PLAIN_FLAGS = 16,
    SLOT_PLAIN_STOP = 17,
    SLOT_PLAIN_LENGTH = 18,
    SLOT_PLAIN_WORDS = 19
};

/* ---- a word's record: the index of each word. What a class or an operand lacks is 0; single bits are 0 or 1. */
enum {
    SLOT_RECORD_CLASS = 0,      /* SLOT_CLASS_.. */
    SLOT_RECORD_CONDITION = 1,  /* SLOT_CONDITION_..; not of SLOT_CLASS_OTHER */
    SLOT_RECORD_OPERATION = 2,  /* processing: SLOT_OPERATION_.. */
    SLOT_RECORD_P = 3,          /* single, block: 1 where the offset is added before the transfer; so are U, W and L */
    SLOT_RECORD_U = 4,          /* 1 up, 0 down */
    SLOT_RECORD_B = 5,          /* single: B, 1 for a byte; processing, block and multiply: S */
    SLOT_RECORD_S = 5,
    SLOT_RECORD_W = 6,          /* single, block: W, 1 where the base is written back; multiply: 1 where Rn is added (MLA) */
    SLOT_RECORD_ACCUMULATE = 6,
    SLOT_RECORD_L = 7,          /* single, block: L, 1 for a load, 0 for a store; branch: link */
    SLOT_RECORD_LINK = 7,
    SLOT_RECORD_RN = 8,         /* processing, single, block, multiply (of a MUL too, which has no use for it) */
    SLOT_RECORD_RD = 9,         /* processing, single, multiply */
    SLOT_RECORD_KIND = 10,      /* the operand, or a single transfer's offset: SLOT_KIND_.., and its fields below */
    SLOT_RECORD_ROTATE = 11,    /* constant: VALUE rotated right by 2 x ROTATE. A single's 12-bit offset is not rotated: */
    SLOT_RECORD_VALUE = 12,     /* it is 256 x ROTATE + VALUE */
    SLOT_RECORD_RM = 11,        /* shifted register: Rm, SLOT_SHIFT_.., then the amount or Rs; multiply: Rm and Rs, KIND is 0 */
    SLOT_RECORD_SHIFT = 12,
    SLOT_RECORD_AMOUNT = 13,
    SLOT_RECORD_RS = 13,
    SLOT_RECORD_LIST = 14,      /* block: the 16 bits; branch: the offset's 24 bits; other: the word */
    SLOT_RECORD_OFFSET = 14,
    SLOT_RECORD_WORD = 14,
    SLOT_RECORD_WORDS = 16      /* word 15 is 0 */
};
enum {
    SLOT_CLASS_PROCESSING = 0,
    SLOT_CLASS_SINGLE = 1,
    SLOT_CLASS_BLOCK = 2,
    SLOT_CLASS_BRANCH = 3,
    SLOT_CLASS_OTHER = 4,
    SLOT_CLASS_MULTIPLY = 5     /* MUL and MLA; before 0.6.0 these words were SLOT_CLASS_OTHER */
};
enum { SLOT_KIND_CONSTANT = 0, SLOT_KIND_BY_AMOUNT = 1, SLOT_KIND_BY_REGISTER = 2 };
enum { SLOT_SHIFT_LSL = 0, SLOT_SHIFT_LSR = 1, SLOT_SHIFT_ASR = 2, SLOT_SHIFT_ROR = 3 };
enum {
    SLOT_OPERATION_AND = 0,
    SLOT_OPERATION_EOR = 1,
    SLOT_OPERATION_SUB = 2,
    SLOT_OPERATION_RSB = 3,
    SLOT_OPERATION_ADD = 4,
    SLOT_OPERATION_ADC = 5,
    SLOT_OPERATION_SBC = 6,
    SLOT_OPERATION_RSC = 7,
    SLOT_OPERATION_TST = 8,
    SLOT_OPERATION_TEQ = 9,
    SLOT_OPERATION_CMP = 10,
    SLOT_OPERATION_CMN = 11,
    SLOT_OPERATION_ORR = 12,
    SLOT_OPERATION_MOV = 13,
    SLOT_OPERATION_BIC = 14,
    SLOT_OPERATION_MVN = 15
};
enum {
    SLOT_CONDITION_EQ = 0,
    SLOT_CONDITION_NE = 1,
    SLOT_CONDITION_CS = 2,
    SLOT_CONDITION_CC = 3,
    SLOT_CONDITION_MI = 4,
    SLOT_CONDITION_PL = 5,
    SLOT_CONDITION_VS = 6,
    SLOT_CONDITION_VC = 7,
    SLOT_CONDITION_HI = 8,
    SLOT_CONDITION_LS = 9,
    SLOT_CONDITION_GE = 10,
    SLOT_CONDITION_LT = 11,
    SLOT_CONDITION_GT = 12,
    SLOT_CONDITION_LE = 13,
    SLOT_CONDITION_AL = 14, /* always */
    SLOT_CONDITION_NV = 15  /* never */
};

/* ---- images as Intel HEX
 *
 * Intel HEX is text that says which bytes stand where in memory, a record in each line. Compilers' tools write it
 * (objcopy -O ihex), and programs that load boards read it. slot_hex_read reads such a text into memory, slot_hex_line
 * writes memory as such a text.
 *
 * A sound record is a colon, then bytes, each as two hexadecimal digits of either case: a count, an address in two
 * bytes, the higher first, a type, as many bytes of data as the count says, and a last byte that brings the sum of all
 * these to 0 modulo 256. Its line has nothing else, not even a space. Three types are read; any other is unsound, also
 * 03 and 05, in which objcopy tells an entry that is not 0:
 *
 *     :03001000E3A0402A    type 00, data: E3 at address 0010, A0 at 0011, 40 at 0012
 *     :020000040001F9      type 04, `upper` for the data that follow, here 0001: two bytes of data, address 0000
 *     :00000001FF          type 01, the end: no data, address 0000
 *
 * Byte j of a data record stands at 65,536 x upper + address + j, which wraps nowhere. `upper` is 0 at first, then what
 * the last type 04 said. A byte that no record names is 0, one that is named twice takes the later. What stands behind
 * the line of the end record is ignored.
 *
 * A line ends in LF, in CR LF or with the text. Where nothing stands behind the last line's end, that is no line; an
 * empty line elsewhere is unsound. A CR that is not right before an LF is a byte of its line.
 *
 * slot_hex_line writes a data record for each 16 bytes of memory, from address 0 up, the last one shorter where the
 * length is no multiple of 16; then the end record. Digits are upper case, and each line ends in LF. A whole file:
 *
 *     uint8_t out[SLOT_HEX_LINE];
 *     uint32_t written;
 *     for (uint32_t line = 0; slot_hex_line(memory, length, line, out, &written) == SLOT_OK && written > 0; line++) {
 *         fwrite(out, 1, written, file);
 *     }
 *
 * Read into memory of that length, whatever it held, these lines give the same bytes again. To read a file and start:
 *
 *     static uint8_t text[1000000];
 *     size_t text_length = fread(text, 1, sizeof text, file);
 *     if (slot_hex_read(text, text_length, memory, length) == SLOT_OK) {
 *         slot_core_start(core, registers, 0, 0, memory, length);
 *     }
 *
 * A text that was cut off before its end record is whole is refused. */
enum { SLOT_HEX_LINE = 44 }; /* the bytes of `out`: no line has more */

/* ---- the calls */

/* Starts a core at `entry` with registers R0 to R14 and flags (N, Z, C, V in bits 3 to 0), about to refill.
 * Changes no memory. A refused start (1, 2, 4, in this order) leaves the core all 0. */
uint32_t slot_core_start(uint32_t *core, const uint32_t *registers, uint32_t flags, uint32_t entry,
                         const uint8_t *memory, size_t length);

/* Runs at most `budget` cycles and sets *used to the cycles it counted. 0: the budget is spent; 21 to 25: the stop
 * that was found, or that the core holds. It tests 12, 11, 3, 13 in this order; a refused run writes neither the core
 * nor the memory, and sets *used to 0. */
uint32_t slot_core_run(uint32_t *core, uint8_t *memory, size_t length, uint64_t budget, uint64_t *used);

/* Goes on to the next boundary (PHASE 0; A is PC-8) and sets *used to the cycles it counted: exactly those left of the
 * instruction under way, its refills with it, or of the start's refill, and none where the core is on a boundary. It
 * finds no stop, also where the instruction at that boundary meets one: the next run does. 0: the core is on a boundary;
 * 21 to 25: the stop that the core holds. It tests 12, 11, 13 in this order, 13 only where those cycles would pass 2^40;
 * a refused settle writes neither the core nor the memory, and sets *used to 0. Runs and settles may be mixed: the
 * cycles of both count towards CYCLES. */
uint32_t slot_core_settle(uint32_t *core, uint8_t *memory, size_t length, uint64_t *used);

/* The bytes that the core's coming cycle stores, 0, 1 or 4, and in *address where, 0 where it stores nothing. Asked of a
 * core that holds a stop, or of an array that stands for none (a word marked neither 0 nor 1), both are 0; what else makes
 * a run refuse with 11 is not looked at. */
uint32_t slot_core_store(const uint32_t *core, uint32_t *address);

/* slot_core_run, with the same answer, *used, core and memory afterwards, that folds the stores of its cycles into the
 * summary: those whose address is at `from` or above, and below `to`. It tests what slot_core_run does, 12, 11, 3, 13 in
 * this order, then the window: 58 where `from` or `to` is no multiple of 4, `from` is not below `to`, or `to` is above the
 * length; then only it answers a stop that the core holds. A refused one writes neither core, memory nor summary, and
 * sets *used to 0. */
uint32_t slot_rate_run(uint32_t *core, uint8_t *memory, size_t length, uint64_t budget, uint64_t *used, uint32_t from,
                       uint32_t to, uint32_t *summary);

/* Start and run of the plain machine, which has no pipeline: a run counts instructions, and tests 12, 11, 3. */
uint32_t slot_plain_start(uint32_t *plain, const uint32_t *registers, uint32_t flags, uint32_t entry,
                          const uint8_t *memory, size_t length);
uint32_t slot_plain_run(uint32_t *plain, uint8_t *memory, size_t length, uint64_t count, uint64_t *used);

/* The record of a word: every word has one. */
void slot_word_read(uint32_t word, uint32_t *record);

/* The word of a record. Refused with 5, and *word 0: an array that slot_word_read could not have made. */
uint32_t slot_word_write(const uint32_t *record, uint32_t *word);

/* Reads an Intel HEX text into memory, whatever memory held. The text may be empty: at text_length 0 no byte of it is
 * read. It tests 1 first, and so refused leaves memory as it was. Then it goes from line to line, testing each for 41,
 * 42 in this order, and answers 43 where no line is left; these three leave memory all 0. */
uint32_t slot_hex_read(const uint8_t *text, size_t text_length, uint8_t *memory, size_t length);

/* Writes one line of the memory's text to `out`, an array of SLOT_HEX_LINE bytes, and sets *written to how many bytes
 * the line has, its LF counted; there is no NUL. The first line is 0; every line past the end record has 0 bytes. Bytes
 * of `out` behind those written stay as they were. It tests 1 first, for every line; refused, it leaves `out` as it was
 * and sets *written to 0. */
uint32_t slot_hex_line(const uint8_t *memory, size_t length, uint32_t line, uint8_t *out, uint32_t *written);

#ifdef __cplusplus
}
#endif

#endif
