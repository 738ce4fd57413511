/* Services of the kernel for a program that syswcet analyses.
 *
 * A service is called by three words that stand one behind the other: its argument goes into a0, its number into
 * a7, and ecall calls the kernel. They are one assembly text, so that no compiler puts a word between them; it is
 * volatile and says that it changes memory, so that none moves it, nor a load or a store past it. The kernel
 * leaves its code in a0 (0 is E_OK) and keeps every other register.
 */
#ifndef OSEK_H
#define OSEK_H

#define SERVICE(number, argument)                                       \
    ({                                                                  \
        register int code_ __asm__("a0");                               \
        __asm__ volatile("addi a0, zero, %1\n\t"                        \
                         "addi a7, zero, %2\n\t"                        \
                         "ecall"                                        \
                         : "=r"(code_)                                  \
                         : "i"(argument), "i"(number)                   \
                         : "a7", "memory");                             \
        code_;                                                          \
    })

/* a task and a resource are named by their place in the OIL file, from 0 */
#define ActivateTask(task) SERVICE(1, task)
#define GetResource(resource) SERVICE(4, resource)
#define ReleaseResource(resource) SERVICE(5, resource)
#define DisableAllInterrupts() SERVICE(6, 0)
#define EnableAllInterrupts() SERVICE(7, 0)
#define SuspendAllInterrupts() SERVICE(8, 0)
#define ResumeAllInterrupts() SERVICE(9, 0)
#define SuspendOSInterrupts() SERVICE(10, 0)
#define ResumeOSInterrupts() SERVICE(11, 0)
#define Schedule() SERVICE(12, 0)

/* these don't come back */
#define TerminateTask() do { SERVICE(2, 0); __builtin_unreachable(); } while (0)
#define ChainTask(task) do { SERVICE(3, task); __builtin_unreachable(); } while (0)
#define EndISR() do { SERVICE(15, 0); __builtin_unreachable(); } while (0)

/* A context starts with any registers, so its entry sets the stack pointer, to the end of a stack of its own, and
 * goes on at the body. link.ld puts entries before all other code: a jump back would be a loop. */
#define CONTEXT(kind, name, bytes)                                                          \
    static unsigned char name##_stack[bytes] __attribute__((aligned(16), used));            \
    static void name##_body(void) __attribute__((noinline, noreturn, used));                \
    __attribute__((naked, section(".text.entry"))) void kind##_##name(void)                 \
    {                                                                                       \
        __asm__("lui sp, %hi(" #name "_stack + " #bytes ")\n\t"                             \
                "addi sp, sp, %lo(" #name "_stack + " #bytes ")\n\t"                        \
                "j " #name "_body");                                                        \
    }                                                                                       \
    static void name##_body(void)

#define TASK(name) CONTEXT(Task, name, 256)
#define ISR(name) CONTEXT(Isr, name, 256)

#endif
