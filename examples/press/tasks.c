/* A press: Guard watches a light curtain, Stroke moves the press and lets others run only where it says so, Feed and
 * Oil use the belt, so that neither begins while the other goes on, and Feed ends by starting Clean, which goes before
 * it: so Clean has always ended when Feed starts it again. */
#include "flow.h"
#include "osek.h"
#include "system.h"

#define CURTAIN (*(volatile unsigned *)0x40000000)
#define BRAKE (*(volatile unsigned *)0x40000004)
#define POSITION (*(volatile unsigned *)0x40000008)
#define DRIVE (*(volatile unsigned *)0x4000000c)
#define BELT (*(volatile unsigned *)0x40000010)
#define VALVE (*(volatile unsigned *)0x40000014)

enum { STEPS = 6, POINTS = 5, NOZZLES = 4 };

static const unsigned profile[STEPS] = {10, 25, 60, 60, 25, 10};
static const unsigned points[POINTS] = {3, 9, 27, 81, 243};
static volatile unsigned strokes, pieces, stopped;

TASK(Guard)
{
    if (CURTAIN & 1) {
        SuspendAllInterrupts();
        BRAKE = 1;
        stopped++;
        ResumeAllInterrupts();
    }
    TerminateTask();
}

static inline unsigned root(unsigned square)
{
    unsigned low = 0, high = 1u << 16;
    while (high - low > 1) {
        LOOP_BOUND(16);
        unsigned middle = (low + high) / 2;
        if (middle * middle > square)
            high = middle;
        else
            low = middle;
    }
    return low;
}

TASK(Stroke)
{
    for (int i = 0; i < STEPS; i++) {
        LOOP_BOUND(STEPS);
        DRIVE = profile[i];
        if (stopped)
            break;
    }
    Schedule();
    DRIVE = root(POSITION);
    strokes++;
    TerminateTask();
}

TASK(Feed)
{
    unsigned sum = 0;
    for (int i = 0; i < POINTS; i++) {
        LOOP_BOUND(POINTS);
        unsigned at = BELT;
        if (at == 0)
            continue;
        sum += points[i] / at;
    }
    pieces += sum;
    ChainTask(Clean);
}

TASK(Oil)
{
    for (int i = 0; i < NOZZLES; i++) {
        LOOP_BOUND(NOZZLES);
        VALVE = 1u << i;
    }
    TerminateTask();
}

TASK(Clean)
{
    VALVE = 0xff;
    TerminateTask();
}
