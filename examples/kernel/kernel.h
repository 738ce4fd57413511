/* An OSEK kernel (BCC1) for `qemu-system-riscv32 -M virt`. docs/KERNEL.md leads through it, docs/MACHINE.md says what it has to do.
 * kernel.c keeps tasks and services, board.c the machine below them, trap.S the way in and out; tables.c is made for one system. */
#ifndef KERNEL_H
#define KERNEL_H

/* where trap.S finds things in a control block, in bytes */
#define STATUS_OFFSET 128
/* cycles of trap.S that the moments it reads don't see: from the end of the instruction before an ECALL to the first reading, from
 * the end of an interrupted instruction to it, and from the last reading to the first instruction of the context that goes on */
#define CALL_ENTRY 3
#define INTERRUPT_ENTRY 2
#define TRAP_EXIT 35

#ifndef __ASSEMBLER__

enum { MOST_TASKS = 16, MOST_ISRS = 8, MOST_ALARMS = 16, MOST_RESOURCES = 9 };
enum { EVENTS = 1 << 16, GAPS = 1024, PAGE = 4096 };

/* services by number, and the codes that they answer */
enum {
    ACTIVATE_TASK = 1, TERMINATE_TASK, CHAIN_TASK, GET_RESOURCE, RELEASE_RESOURCE, DISABLE_ALL, ENABLE_ALL, SUSPEND_ALL, RESUME_ALL,
    SUSPEND_OS, RESUME_OS, SCHEDULE, END_ISR = 15
};
enum { E_OK, E_OS_ACCESS, E_OS_CALLEVEL, E_OS_ID, E_OS_LIMIT, E_OS_NOFUNC, E_OS_RESOURCE, E_OS_STATE };

/* One deliberate fault a build, for tools/campaign: `make FAULT=LOST_CEILING ..`. */
enum {
    NO_FAULT, SLOW_SERVICE, HIDDEN_TICK, LOST_CEILING, EARLY_ALARM, OPEN_LOCK, OPEN_ISR, NO_DISPATCH, NO_INNER_CEILING,
    LOST_ACTIVATION, LATE_RELEASE, VOID_SCHEDULE, BROKEN_CHAIN, DOUBLE_EXPIRY, LOWEST_FIRST, LOST_EVENT, EARLY_INTERRUPT
};
#ifndef FAULT
#define FAULT NO_FAULT
#endif

/* What tables.c says of the system. A standing orders tasks: the current priority, whether a ceiling raises it, the own priority. */
#define STANDING(current, raised, own) ((unsigned)(current) << 8 | (unsigned)(raised) << 7 | (unsigned)(own))

struct task_table {
    unsigned entry, stack;
    unsigned activated;  /* its standing when it is activated .. */
    unsigned dispatched; /* .. and from its dispatch on: with its inner ceiling, if it has one */
    unsigned resources;  /* a bit for each resource that it may take */
    unsigned modes;      /* a bit for each mode that starts it */
};
struct isr_table { unsigned entry, stack, distance; };
struct alarm_table { unsigned task, first, cycle, modes; }; /* in cycles; `cycle` is 0 where it doesn't repeat */
struct page_table { unsigned address, rights; const unsigned char *bytes; unsigned size; };

extern const unsigned task_count, isr_count, alarm_count, resource_count, page_count, devices_address;
extern const struct task_table task_tables[];
extern const struct isr_table isr_tables[];
extern const struct alarm_table alarm_tables[];
extern const unsigned ceilings[];
extern const struct page_table pages[];
enum { READABLE = 2, WRITABLE = 4, EXECUTABLE = 8 };

/* A context's control block: what trap.S saves and loads, then what the kernel keeps of a task. */
struct context {
    unsigned registers[32]; /* x1 to x31; in place of x0 the address of the next instruction */
    unsigned status;        /* mstatus: the privilege with which it goes on */
    unsigned number;        /* of the task, or of the ISR and MOST_TASKS more */
    unsigned standing;      /* 0: suspended */
    unsigned depth;         /* how many resources it holds */
    struct { unsigned resource, standing; } held[MOST_RESOURCES]; /* each with the standing that it is given back to */
};

/* A source of arrivals: the next moment at which it is due, in cycles. */
struct source { unsigned due, is_live; };

/* One event of the recorder. `place` is the address of a service's ECALL, or how long a source that is taken has waited. */
enum { ARRIVED = 1, TAKEN, SERVED };
struct event { unsigned what, start, end, place; };

/* What the test bench asks of a run; all zero where it says nothing. */
struct script {
    unsigned end;                       /* the run's length in cycles; 0: 40,000,000 */
    unsigned seed;                      /* of the values of devices */
    unsigned mode;
    unsigned alarm_phases[MOST_ALARMS]; /* cycles, multiples of 100, that an alarm first comes later than the OIL file says */
    unsigned isr_phases[MOST_ISRS];
    unsigned gaps[GAPS];                /* cycles by which an interrupt comes later than its least distance, one after the other */
};

/* kernel.c */
extern struct context *running;
extern struct source alarms[MOST_ALARMS], isrs[MOST_ISRS];
extern struct event ring[EVENTS];
extern unsigned recorded, zero; /* how many events there were, and moment 0 */
struct context *trapped(unsigned cause, unsigned moment);
struct context *started(void);
int first_due(const struct source *sources, unsigned count);

/* board.c */
extern struct script script; /* where kernel.ld says */
unsigned cycles(void);
void start_board(void);
void set_timer(int alarm);
void set_interrupt(int isr);
void acknowledge_interrupt(void);
void open_interrupts(int are_open);
void idle(void) __attribute__((noreturn));
void shut_down(unsigned cause) __attribute__((noreturn));
extern unsigned char idle_stack[];
enum { IDLE_STACK = 1024 };

#endif
#endif
