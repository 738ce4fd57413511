/* A pump: Control keeps its pressure, Tooth and Speed measure how fast it turns, Report sends a frame, and Log
 * keeps a line of text. Control and Report share the bus. */
#include "flow.h"
#include "osek.h"
#include "signals.h"
#include "system.h"

#define PRESSURE (*(volatile int *)0x40000000)
#define VALVE (*(volatile int *)0x40000004)
#define TIMER (*(volatile unsigned *)0x40000008)
#define LINE (*(volatile unsigned char *)0x4000000c)

enum { FRAME = 12, WANTED = 2000 };

static volatile unsigned newest_tooth, period;
static volatile int pressure;
static unsigned char frame[FRAME];
static unsigned char line[16];

TASK(Control)
{
    int error;
    pressure = filtered(PRESSURE);
    error = WANTED - pressure;
    GetResource(Bus);
    VALVE = limited(error / 4, -512, 511);
    ReleaseResource(Bus);
    TerminateTask();
}

ISR(Tooth)
{
    newest_tooth = TIMER;
    ActivateTask(Speed);
    EndISR();
}

TASK(Speed)
{
    static unsigned before;
    unsigned now = newest_tooth;
    period = now - before;
    before = now;
    TerminateTask();
}

static void put(unsigned char *place, unsigned value)
{
    for (int i = 0; i < 4; i++) {
        LOOP_BOUND(4);
        place[i] = (unsigned char)value;
        value >>= 8;
    }
}

TASK(Report)
{
    put(frame, (unsigned)pressure);
    put(frame + 4, period);
    put(frame + 8, checked(frame, 8));
    GetResource(Bus);
    for (int i = 0; i < FRAME; i++) {
        LOOP_BOUND(FRAME);
        LINE = frame[i];
    }
    ReleaseResource(Bus);
    ActivateTask(Log);
    TerminateTask();
}

TASK(Log)
{
    int length = written(period, line);
    line[length] = '\n';
    TerminateTask();
}
