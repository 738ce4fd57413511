/* Tasks, interrupts and services, as docs/MACHINE.md has them under "The kernel". */
#include "kernel.h"

static struct context tasks[MOST_TASKS], isr_contexts[MOST_ISRS], idle_context;
struct context *running;
static struct context *isr;                /* the active ISR, if there is one */
static unsigned is_disabled, suspensions;  /* the flag of DisableAllInterrupts, the depth of Suspend.. */
static unsigned held_resources;            /* a bit for each resource that some task holds */

struct source alarms[MOST_ALARMS], isrs[MOST_ISRS];
static int next_alarm, next_isr;           /* what the timer and the interrupt are set for */
static unsigned next_gap;

struct event ring[EVENTS];
unsigned recorded, zero;
static unsigned nowhere;
unsigned *last_end = &zero;                /* where trap.S puts the moment at which the kernel ends: that of StartOS is moment 0 */

enum { USER = 1u << 7, MACHINE = 3u << 11 | 1u << 7 };
enum { CALL = 8, TIMER = 0x80000007, EXTERNAL = 0x8000000b };

/* ---- The recorder: a ring that keeps the newest events */

static void record(unsigned what, unsigned who, unsigned number, unsigned start, unsigned place)
{
    struct event *event = &ring[recorded++ % EVENTS];
    event->what = what << 16 | who << 8 | number;
    event->start = start;
    event->end = start;
    event->place = place;
    if (what != ARRIVED)
        last_end = &event->end;
}

/* ---- Who runs */

static void start(struct context *context, unsigned number, unsigned entry, unsigned stack)
{
    context->number = number;
    context->registers[0] = entry;
    context->registers[2] = stack;
    context->status = USER;
}

static unsigned activate(unsigned task)
{
    struct context *context = &tasks[task];
    if (context->standing)
        return E_OS_LIMIT;
    start(context, task, task_tables[task].entry, task_tables[task].stack);
    context->standing = task_tables[task].activated;
    context->depth = 0;
    return E_OK;
}

static struct context *first_task(void)
{
    struct context *first = &idle_context;
    unsigned best = FAULT == LOWEST_FIRST ? ~0u : 0;
    for (unsigned task = 0; task < task_count; task++) {
        unsigned standing = tasks[task].standing;
        if (FAULT == LOWEST_FIRST ? standing && standing < best : standing > best) {
            best = standing;
            first = &tasks[task];
        }
    }
    return first;
}

/* The context that goes on. */
static struct context *dispatched(void)
{
    if (isr) {
        running = isr;
    } else {
        running = first_task();
        if (running != &idle_context) {
            unsigned standing = task_tables[running->number].dispatched;
            if (running->standing < standing && FAULT != NO_INNER_CEILING)
                running->standing = standing;
        }
    }
    open_interrupts((!isr || FAULT == OPEN_ISR) && ((!is_disabled && !suspensions) || FAULT == OPEN_LOCK));
    return running;
}

/* ---- Services */

static unsigned get_resource(struct context *caller, unsigned resource)
{
    unsigned standing = caller->standing, raised;
    if (resource >= resource_count)
        return E_OS_ID;
    if (!(task_tables[caller->number].resources >> resource & 1) || held_resources >> resource & 1)
        return E_OS_ACCESS;
    held_resources |= 1u << resource;
    caller->held[caller->depth].resource = resource;
    caller->held[caller->depth].standing = standing;
    caller->depth++;
    raised = STANDING(ceilings[resource], 1, standing & 0x7f);
    if (FAULT != LOST_CEILING)
        caller->standing = (raised > standing ? raised : standing) | STANDING(0, 1, 0);
    return E_OK;
}

static unsigned release_resource(struct context *caller, unsigned resource)
{
    if (!caller->depth || caller->held[caller->depth - 1].resource != resource)
        return E_OS_NOFUNC;
    held_resources &= ~(1u << resource);
    caller->depth--;
    if (FAULT != LATE_RELEASE || caller->depth)
        caller->standing = caller->held[caller->depth].standing;
    return E_OK;
}

static unsigned chain_task(struct context *caller, unsigned task)
{
    if (task >= task_count)
        return E_OS_ID;
    if (caller->depth)
        return E_OS_RESOURCE;
    if (&tasks[task] != caller && tasks[task].standing)
        return E_OS_LIMIT;
    caller->standing = 0;
    return FAULT == BROKEN_CHAIN ? E_OK : activate(task);
}

static unsigned schedule(struct context *caller)
{
    if (caller->depth)
        return E_OS_RESOURCE;
    if (FAULT != VOID_SCHEDULE)
        caller->standing = task_tables[caller->number].activated;
    return E_OK;
}

static unsigned suspended(void)
{
    if (suspensions == 7)
        return E_OS_LIMIT;
    suspensions++;
    return E_OK;
}

static unsigned resumed(void)
{
    if (!suspensions)
        return E_OS_STATE;
    suspensions--;
    return E_OK;
}

/* Whether the service may not be called from where the caller stands. */
static int is_misplaced(struct context *caller, unsigned number)
{
    if ((is_disabled || suspensions) && (number < ENABLE_ALL || number > RESUME_OS))
        return 1;
    if (caller == isr)
        return (number >= TERMINATE_TASK && number <= RELEASE_RESOURCE) || number == SCHEDULE;
    return number == END_ISR;
}

/* The code that the service answers. */
static unsigned served(struct context *caller, unsigned number, unsigned argument)
{
    if (is_misplaced(caller, number))
        return number == DISABLE_ALL && is_disabled ? E_OS_STATE : E_OS_CALLEVEL;
    switch (number) {
    case ACTIVATE_TASK:
        return argument < task_count ? activate(argument) : E_OS_ID;
    case TERMINATE_TASK:
        if (caller->depth)
            return E_OS_RESOURCE;
        caller->standing = 0;
        return E_OK;
    case CHAIN_TASK:
        return chain_task(caller, argument);
    case GET_RESOURCE:
        return get_resource(caller, argument);
    case RELEASE_RESOURCE:
        return release_resource(caller, argument);
    case DISABLE_ALL:
        is_disabled = 1;
        return E_OK;
    case ENABLE_ALL:
        if (!is_disabled)
            return E_OS_STATE;
        is_disabled = 0;
        return E_OK;
    case SUSPEND_ALL:
    case SUSPEND_OS:
        return suspended();
    case RESUME_ALL:
    case RESUME_OS:
        return resumed();
    case SCHEDULE:
        return schedule(caller);
    case END_ISR:
        isr = 0;
        return E_OK;
    default:
        shut_down(CALL);
    }
}

static void serve(struct context *caller, unsigned begun)
{
    unsigned number = caller->registers[17], at = caller->registers[0];
    if (FAULT != LOST_EVENT || number != TERMINATE_TASK || recorded % 64)
        record(SERVED, caller->number, number, begun, at);
    if (FAULT == SLOW_SERVICE)
        for (int i = 0; i < 100; i++)
            __asm__ volatile("");
    caller->registers[0] = at + 4;
    caller->registers[10] = served(caller, number, caller->registers[10]);
}

/* ---- Sources */

/* The source that is due first, the one with the lower number of two; -1 where none is live. */
int first_due(const struct source *sources, unsigned count)
{
    int first = -1;
    for (unsigned i = 0; i < count; i++)
        if (sources[i].is_live && (first < 0 || (int)(sources[i].due - sources[first].due) < 0))
            first = i;
    return first;
}

/* The distance from one arrival of an ISR to its next one. */
static unsigned gap(unsigned number)
{
    unsigned least = isr_tables[number].distance;
    if (FAULT == EARLY_INTERRUPT)
        least -= 100;
    return least + script.gaps[next_gap++ % GAPS];
}

static unsigned alarm_cycle(unsigned alarm)
{
    return alarm_tables[alarm].cycle - (FAULT == EARLY_ALARM ? 100 : 0);
}

/* An expiry that comes while the one before it is pending is merged with it: there is one pending bit a source. */
static void take_alarm(unsigned begun)
{
    unsigned alarm = next_alarm;
    struct source *source = &alarms[alarm];
    if (next_alarm < 0 || (int)(begun - source->due) < 0) {
        set_timer(next_alarm);
        return;
    }
    record(TAKEN, alarm, 0, begun, begun - source->due);
    source->is_live = alarm_tables[alarm].cycle != 0;
    if (source->is_live && (FAULT != DOUBLE_EXPIRY || recorded % 16)) {
        source->due += alarm_cycle(alarm);
        while ((int)(begun - source->due) >= 0) {
            record(ARRIVED, alarm, 0, source->due, 0);
            source->due += alarm_cycle(alarm);
        }
    }
    if (FAULT != LOST_ACTIVATION || recorded % 32)
        activate(alarm_tables[alarm].task);
    next_alarm = first_due(alarms, alarm_count);
    set_timer(next_alarm);
}

static void take_interrupt(unsigned begun)
{
    unsigned number = next_isr;
    struct source *source = &isrs[number];
    acknowledge_interrupt();
    record(TAKEN, MOST_ALARMS + number, 0, begun, begun - source->due);
    source->due += gap(number);
    while ((int)(begun - source->due) >= 0) {
        record(ARRIVED, MOST_ALARMS + number, 0, source->due, 0);
        source->due += gap(number);
    }
    isr = &isr_contexts[number];
    start(isr, MOST_TASKS + number, isr_tables[number].entry, isr_tables[number].stack);
    next_isr = first_due(isrs, isr_count);
    set_interrupt(next_isr);
}

/* ---- The way in */

/* Serves the trap, which began so many cycles before the moment as trap.S takes; gives the context that goes on. */
struct context *trapped(unsigned cause, unsigned moment)
{
    last_end = &nowhere;
    if (cause == CALL)
        serve(running, moment - CALL_ENTRY);
    else if (cause == TIMER)
        take_alarm(moment - INTERRUPT_ENTRY);
    else if (cause == EXTERNAL)
        take_interrupt(moment - INTERRUPT_ENTRY);
    else
        shut_down(cause);
    if (FAULT == NO_DISPATCH && cause == CALL && running->standing)
        return running;
    return dispatched();
}

/* StartOS. No alarm and no interrupt is due before its end. */
struct context *started(void)
{
    unsigned base;
    start_board();
    base = cycles() + 20000;
    base -= base % 1000;
    start(&idle_context, 0, (unsigned)idle, (unsigned)idle_stack + IDLE_STACK);
    idle_context.status = MACHINE;
    for (unsigned i = 0; i < task_count; i++)
        if (task_tables[i].modes >> script.mode & 1)
            activate(i);
    for (unsigned i = 0; i < alarm_count; i++) {
        alarms[i].is_live = alarm_tables[i].modes >> script.mode & 1;
        alarms[i].due = base + alarm_tables[i].first + script.alarm_phases[i];
    }
    for (unsigned i = 0; i < isr_count; i++) {
        isrs[i].is_live = 1;
        isrs[i].due = base + script.isr_phases[i];
    }
    next_alarm = first_due(alarms, alarm_count);
    next_isr = first_due(isrs, isr_count);
    set_timer(next_alarm);
    set_interrupt(next_isr);
    return dispatched();
}
