/* Sends frames to a link buffer without end: a sync word, six words of data, their sum. README.md says how it became sender.bin. */
#define LINK (*(volatile unsigned *)0x3F0)

/* The core starts at 0 with zero registers. Memory has 0x400 bytes; the stack is below the link buffer. */
__attribute__((naked, section(".start"))) void start(void)
{
    __asm__("mov sp, #0x3F0\n\tb send");
}

static unsigned data[6];

static unsigned gathered(unsigned seed)
{
    for (int i = 0; i < 6; i++) {
        seed ^= seed << 13;
        seed ^= seed >> 17;
        seed ^= seed << 5;
        data[i] = seed;
    }
    return seed;
}

__attribute__((noreturn)) void send(void)
{
    unsigned seed = 1;
    for (;;) {
        unsigned sum = 0;
        seed = gathered(seed);
        LINK = 0x7E7E7E7E;
        for (int i = 0; i < 6; i++) {
            LINK = data[i];
            sum += data[i];
        }
        LINK = sum;
    }
}
