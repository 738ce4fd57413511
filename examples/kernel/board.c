/* The machine below the kernel: QEMU's `virt` with one processor. Its CLINT serves the alarms, and the alarm of its real-time clock
 * plays the devices that interrupt, through the PLIC. Contexts run in user mode, each address mapped as the program has it. */
#include "kernel.h"

#define REGISTER(address) (*(volatile unsigned *)(address))
#define TEST REGISTER(0x100000)
#define CLOCK(offset) REGISTER(0x101000 + (offset))
#define CLINT(offset) REGISTER(0x2000000 + (offset))
#define PLIC(offset) REGISTER(0xc000000 + (offset))
#define UART(offset) (*(volatile unsigned char *)(0x10000000 + (offset)))

enum { TIME_LOW = 0, TIME_HIGH = 4, ALARM_LOW = 8, ALARM_HIGH = 12, IS_ENABLED = 16, CLEAR_INTERRUPT = 28 };
enum { COMPARE = 0x4000, TIME = 0xbff8 };
enum { PRIORITIES = 0, ENABLED = 0x2000, CLAIM = 0x200004, CLOCK_LINE = 11 };
enum { FIFO_CONTROL = 2, LINE_STATUS = 5, IS_EMPTY = 0x20, FIFO = 16 };
enum { TIMER_OPEN = 1 << 7, EXTERNAL_OPEN = 1 << 11 };
enum { TICK = 100 }; /* cycles of a tick of the CLINT, whose clock has 10 MHz */

#define WRITE(name, value) __asm__ volatile("csrw " #name ", %0" ::"r"(value) : "memory")

unsigned char idle_stack[IDLE_STACK] __attribute__((aligned(16)));
static unsigned clock_offset; /* the real-time clock less the cycles of the processor */

unsigned cycles(void)
{
    unsigned value;
    __asm__ volatile("csrr %0, mcycle" : "=r"(value));
    return value;
}

void open_interrupts(int are_open)
{
    WRITE(mie, are_open ? TIMER_OPEN | EXTERNAL_OPEN : 0);
}

/* ---- Sources */

/* Sets the timer for the moment at which the alarm is due, or for none where it is -1. */
void set_timer(int alarm)
{
    unsigned high, low, least, ticks = ~0u;
    int ahead;
    do {
        high = CLINT(TIME + 4);
        low = CLINT(TIME);
    } while (high != CLINT(TIME + 4));
    if (alarm >= 0) {
        ahead = alarms[alarm].due - low * TICK;
        ticks = ahead > 0 ? (unsigned)ahead / TICK : 0;
    }
    if (FAULT == HIDDEN_TICK && ticks > 10 - low % 10)
        ticks = 10 - low % 10;
    least = low + ticks;
    CLINT(COMPARE + 4) = ~0u;
    CLINT(COMPARE) = least;
    CLINT(COMPARE + 4) = alarm < 0 && FAULT != HIDDEN_TICK ? ~0u : high + (least < low);
}

/* Sets the real-time clock's alarm for the moment at which the interrupt is due; nothing where it is -1. */
void set_interrupt(int isr)
{
    unsigned low, high, moment;
    int ahead;
    if (isr < 0)
        return;
    low = CLOCK(TIME_LOW);
    high = CLOCK(TIME_HIGH);
    ahead = isrs[isr].due - (low - clock_offset);
    moment = low + (ahead > 0 ? (unsigned)ahead : 0);
    CLOCK(ALARM_HIGH) = high + (moment < low);
    CLOCK(ALARM_LOW) = moment;
}

void acknowledge_interrupt(void)
{
    unsigned line = PLIC(CLAIM);
    CLOCK(CLEAR_INTERRUPT) = 1;
    PLIC(CLAIM) = line;
}

/* ---- Memory */

enum { VALID = 1, USER_PAGE = 16, SEEN = 64 | 128, WORDS = PAGE / 4, TABLES = 8, PAGES = 128 };
static unsigned root[WORDS] __attribute__((aligned(PAGE))), leaves[TABLES][WORDS] __attribute__((aligned(PAGE)));
static unsigned char frames[PAGES][PAGE] __attribute__((aligned(PAGE)));
static unsigned leaf_count, frame_count, random_state;
static volatile unsigned *devices;

/* Maps the page of the address to a frame of its own. */
static unsigned char *map(unsigned address, unsigned rights)
{
    unsigned *entry = &root[address >> 22];
    unsigned *leaf;
    if (frame_count == PAGES || (!*entry && leaf_count == TABLES))
        shut_down(0);
    if (!*entry)
        *entry = (unsigned)leaves[leaf_count++] >> 2 | VALID;
    leaf = (unsigned *)(*entry >> 10 << 12);
    leaf[address >> 12 & (WORDS - 1)] = (unsigned)frames[frame_count] >> 2 | rights | VALID | USER_PAGE | SEEN;
    return frames[frame_count++];
}

static void load_program(void)
{
    for (unsigned i = 0; i < page_count; i++) {
        unsigned char *frame = map(pages[i].address, pages[i].rights);
        for (unsigned j = 0; j < pages[i].size; j++)
            frame[j] = pages[i].bytes[j];
    }
    devices = (volatile unsigned *)map(devices_address, READABLE | WRITABLE);
}

void start_board(void)
{
    load_program();
    WRITE(pmpaddr0, ~0u);
    WRITE(pmpcfg0, 0x1f);
    WRITE(satp, 1u << 31 | (unsigned)root >> 12);
    __asm__ volatile("sfence.vma");
    random_state = script.seed + 1;
    clock_offset = -cycles();
    clock_offset += CLOCK(TIME_LOW);
    if (isr_count) {
        CLOCK(IS_ENABLED) = 1;
        PLIC(PRIORITIES + 4 * CLOCK_LINE) = 1;
        PLIC(ENABLED) = 1 << CLOCK_LINE;
    }
}

/* ---- The test bench: idling plays the devices, and the end of the run writes the recording */

static unsigned drawn(void)
{
    random_state ^= random_state << 13;
    random_state ^= random_state >> 17;
    random_state ^= random_state << 5;
    return random_state;
}

void idle(void)
{
    unsigned end = zero + (script.end ? script.end : 40000000);
    for (;;) {
        /* small values and 0 are as likely as large ones */
        for (unsigned i = 0; i < 16; i++)
            devices[i] = drawn() >> (drawn() & 31);
        if ((int)(cycles() - end) >= 0)
            shut_down(0);
        __asm__ volatile("wfi");
    }
}

/* Writes four words, the least byte of each first: as many bytes as the UART's FIFO holds. */
static void put(unsigned first, unsigned second, unsigned third, unsigned fourth)
{
    unsigned words[] = {first, second, third, fourth};
    while (!(UART(LINE_STATUS) & IS_EMPTY))
        ;
    for (unsigned i = 0; i < FIFO; i++)
        UART(0) = words[i / 4] >> i % 4 * 8;
}

/* Writes the recording and ends QEMU. It begins with eight words: 0x4f53454b; the cause of a trap that nobody awaits, or 0 where the
 * run ended as it should, with its address and value; moment 0, the last moment, how many events there were, and how many follow.
 * Then the events, oldest first. */
void shut_down(unsigned cause)
{
    unsigned address, value, kept;
    WRITE(mstatus, 0); /* from here on nothing is recorded */
    kept = recorded < EVENTS ? recorded : EVENTS;
    __asm__ volatile("csrr %0, mepc" : "=r"(address));
    __asm__ volatile("csrr %0, mtval" : "=r"(value));
    UART(FIFO_CONTROL) = 1;
    put(0x4f53454b, cause, address, value);
    put(zero, cycles(), recorded, kept);
    for (unsigned i = recorded - kept; i != recorded; i++) {
        struct event *event = &ring[i % EVENTS];
        put(event->what, event->start, event->end, event->place);
    }
    TEST = 0x5555;
    for (;;)
        ;
}
