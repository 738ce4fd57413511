/* Two tasks for an OSEK system: Control filters a sample, Logger keeps a checksum and its decimal text.
 *
 * s.elf is this file by clang and ld.lld 14:
 *   clang --target=riscv32-unknown-elf -march=rv32im -mabi=ilp32 -O1 -fno-optimize-sibling-calls \
 *         -fno-unroll-loops -ffreestanding -mno-relax -c tasks.c -o tasks.o
 *   ld.lld -Ttext=0x100 -e Task_Control --no-relax tasks.o -o s.elf
 */

#define SERVICE(number, argument)                                                            \
    __asm__ volatile("addi a0, zero, %0\n\taddi a7, zero, %1\n\tecall"                       \
                     :: "i"(argument), "i"(number) : "a0", "a7", "memory")

enum { TERMINATE_TASK = 2, GET_RESOURCE = 4, RELEASE_RESOURCE = 5 };
enum { BUS = 0, TAPS = 8, RECORD = 16 };

static const int weights[TAPS] = {3, 7, 11, 13, 13, 11, 7, 3};
static int samples[TAPS];
static volatile int input, output;
static unsigned char record[RECORD];
static unsigned checksum;
char text[12];

static int filtered(int sample)
{
    int sum = 0;
    for (int i = TAPS - 1; i > 0; i--) {
        samples[i] = samples[i - 1];
        sum += weights[i] * samples[i];
    }
    samples[0] = sample;
    return sum + weights[0] * sample;
}

void Task_Control(void)
{
    int value = filtered(input);
    output = value > 4095 ? 4095 : value < -4096 ? -4096 : value / 68;
    SERVICE(TERMINATE_TASK, 0);
    __builtin_unreachable();
}

static unsigned summed(const unsigned char *bytes, unsigned crc)
{
    for (int i = 0; i < RECORD; i++) {
        crc ^= bytes[i];
        for (int bit = 0; bit < 8; bit++)
            crc = crc & 1 ? crc >> 1 ^ 0xedb88320u : crc >> 1;
    }
    return crc;
}

static void written(unsigned number)
{
    for (int place = 9; place >= 0; place--) {
        text[place] = (char)('0' + number % 10);
        number /= 10;
    }
}

void Task_Logger(void)
{
    SERVICE(GET_RESOURCE, BUS);
    checksum = summed(record, checksum);
    SERVICE(RELEASE_RESOURCE, BUS);
    written(checksum);
    SERVICE(TERMINATE_TASK, 0);
    __builtin_unreachable();
}
