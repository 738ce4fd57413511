/* Bounds of loops, said in the source: LOOP_BOUND(n) at the head of a loop's body, before anything that may leave the
 * round or begin the next one, says that each time that the loop is come to its body begins at most n times.
 *
 *     for (int i = 0; i < count; i++) {
 *         LOOP_BOUND(8);
 *         ..
 *     }
 *
 * It emits no instruction: the section .syswcet.loops, which isn't loaded, gets three words, the address at which the
 * body begins, n, a constant, and which of its source's bounds it is. It is volatile, so that the compiler keeps it in
 * the round; a copy of the body, by unrolling or inlining, has its own three words. tools/draft makes the loops of a
 * timing file of them.
 */
#ifndef FLOW_H
#define FLOW_H

#define LOOP_BOUND(n)                                                                                    \
    __asm__ volatile inline("9999: .pushsection .syswcet.loops,\"\",@progbits; .word 9999b, %0, %1; .popsection" \
                            : : "i"(n), "i"(__COUNTER__))

#endif
