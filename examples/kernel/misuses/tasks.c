/* Each service where it is misused, and what the kernel has to answer (docs/MACHINE.md, The kernel). A code other than the one that is
 * wanted, or a task that runs too early or too late, ends in EBREAK, at which the kernel stops. */
#include "osek.h"

enum { Middle, Low, High };
enum { Bus, Disk, Belt, RES_SCHEDULER };

#define WANT(condition) do { if (!(condition)) __asm__ volatile("ebreak"); } while (0)

/* these may come back where they are misused */
#define TryTerminateTask() SERVICE(2, 0)
#define TryChainTask(task) SERVICE(3, task)
#define TryEndISR() SERVICE(15, 0)

enum { OK, ACCESS, CALLEVEL, LIMIT = 4, NOFUNC, RESOURCE, STATE };
static volatile unsigned runs_of_high;

TASK(Middle)
{
    WANT(ActivateTask(Low) == LIMIT && ActivateTask(Middle) == LIMIT);
    WANT(GetResource(Disk) == ACCESS && GetResource(Belt) == ACCESS && ReleaseResource(Bus) == NOFUNC);
    WANT(GetResource(Bus) == OK && GetResource(Bus) == ACCESS && GetResource(RES_SCHEDULER) == OK);
    WANT(ReleaseResource(Bus) == NOFUNC);
    WANT(TryTerminateTask() == RESOURCE && TryChainTask(High) == RESOURCE && Schedule() == RESOURCE);
    /* ceilings, and then the inner one, hold High off until Schedule */
    WANT(ActivateTask(High) == OK && runs_of_high == 0);
    WANT(ReleaseResource(RES_SCHEDULER) == OK && runs_of_high == 0);
    WANT(ReleaseResource(Bus) == OK && runs_of_high == 0);
    WANT(Schedule() == OK && runs_of_high == 1);
    WANT(TryChainTask(Low) == LIMIT && TryEndISR() == CALLEVEL);
    WANT(EnableAllInterrupts() == STATE && ResumeAllInterrupts() == STATE && ResumeOSInterrupts() == STATE);
    WANT(DisableAllInterrupts() == OK && DisableAllInterrupts() == STATE);
    WANT(ActivateTask(High) == CALLEVEL && TryTerminateTask() == CALLEVEL && TryChainTask(High) == CALLEVEL);
    WANT(GetResource(Bus) == CALLEVEL && ReleaseResource(Bus) == CALLEVEL && Schedule() == CALLEVEL);
    WANT(TryEndISR() == CALLEVEL);
    /* the flag and the depth are kept apart */
    WANT(SuspendAllInterrupts() == OK && EnableAllInterrupts() == OK && DisableAllInterrupts() == CALLEVEL);
    WANT(SuspendOSInterrupts() == OK && SuspendAllInterrupts() == OK && SuspendAllInterrupts() == OK);
    WANT(SuspendAllInterrupts() == OK && SuspendAllInterrupts() == OK && SuspendAllInterrupts() == OK);
    WANT(SuspendAllInterrupts() == LIMIT && SuspendOSInterrupts() == LIMIT);
    WANT(ResumeOSInterrupts() == OK && ResumeAllInterrupts() == OK && ResumeAllInterrupts() == OK);
    WANT(ResumeAllInterrupts() == OK && ResumeAllInterrupts() == OK && ResumeAllInterrupts() == OK);
    WANT(ResumeAllInterrupts() == OK && ResumeAllInterrupts() == STATE && runs_of_high == 1);
    WANT(ActivateTask(High) == OK);
    TerminateTask();
}

TASK(Low)
{
    WANT(runs_of_high >= 2);
    WANT(GetResource(Bus) == ACCESS && GetResource(Disk) == OK && ReleaseResource(Disk) == OK);
    TerminateTask();
}

TASK(High)
{
    runs_of_high++;
    TerminateTask();
}

ISR(Line)
{
    WANT(TryTerminateTask() == CALLEVEL && TryChainTask(High) == CALLEVEL && Schedule() == CALLEVEL);
    WANT(GetResource(Bus) == CALLEVEL && ReleaseResource(Bus) == CALLEVEL);
    WANT(DisableAllInterrupts() == OK && TryEndISR() == CALLEVEL && EnableAllInterrupts() == OK);
    (void)ActivateTask(Low);
    EndISR();
}
