/* What a host of the library has for arm_answers.c: its lines in and out, and what it does around a call of the library. */
#ifndef ARM_LINES_H
#define ARM_LINES_H
#include <stdint.h>

enum called { RUN, LISTING, CHECK, TOKENS, FUNCTIONS };

/* How many of the bytes were read or written: 0 at the end of the input, below 0 for an error. */
int host_read(void *to, uint32_t length);
int host_write(const void *from, uint32_t length);
/* Ends the program: 0, or what went wrong (2 the input ends within a case, 3 not written, 4 a case too long, 5 its bytes are missing,
 * 8 layout_tokens is not right). */
void host_stop(int status) __attribute__((noreturn));
/* Before and after a call of the library, both from the frame that the call is made from, whose end is at `stack`. */
void host_before(void);
void host_after(enum called which, uintptr_t stack);

/* The end of the frame that this stands in. */
__attribute__((always_inline)) static inline uintptr_t stack_here(void)
{
    uintptr_t stack;
    __asm__ volatile("mov %0, sp" : "=r"(stack));
    return stack;
}

/* 1 if layout_tokens writes the images that it must (arm_tokens.c). */
int tokens_right(void);
/* Answers all cases of the input (arm_answers.c). */
void answer_all(void);
#endif
