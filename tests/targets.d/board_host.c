/* The host of arm_answers.c on the board mps2-an385, a Cortex-M3 from its reset on. Its lines are files of the debugging host
 * ("Semihosting for AArch32 and AArch64"), in the folder that qemu-system-arm is started in: `cases` is read; `answers` is written,
 * and at the end `stack`, for layout_run, layout_listing, layout_check and layout_tokens the most bytes that a call took (4 bytes each).
 *
 * Before each call the stack below is filled with one word; after it, the lowest word that is another tells how far the call came. */
#include "arm_lines.h"

enum { SYS_OPEN = 0x01, SYS_CLOSE = 0x02, SYS_WRITE = 0x05, SYS_READ = 0x06, SYS_EXIT_EXTENDED = 0x20 };
enum { READ_BYTES = 1, WRITE_BYTES = 5, APPLICATION_EXIT = 0x20026 };
enum { NOT_OPENED = 6, FAULT = 7 };
#define PAINT 0x5ac3965au

/* board.ld */
extern uint32_t stack_low[], stack_top[], bss_low[], bss_end[];

static uint32_t cases, answers, most[FUNCTIONS];

static int semihosting(int number, const uint32_t *words)
{
    register int r0 __asm__("r0") = number;
    register const uint32_t *r1 __asm__("r1") = words;
    __asm__ volatile("bkpt 0xab" : "+r"(r0) : "r"(r1) : "memory");
    return r0;
}

void host_stop(int status)
{
    const uint32_t words[] = {APPLICATION_EXIT, (uint32_t)status};
    for (;;)
        semihosting(SYS_EXIT_EXTENDED, words);
}

static uint32_t opened(const char *name, uint32_t length, uint32_t mode)
{
    const uint32_t words[] = {(uint32_t)name, mode, length};
    int handle = semihosting(SYS_OPEN, words);
    if (handle < 0)
        host_stop(NOT_OPENED);
    return (uint32_t)handle;
}

/* Both calls give the number of bytes that are left over. */
int host_read(void *to, uint32_t length)
{
    const uint32_t words[] = {cases, (uint32_t)to, length};
    return (int)length - semihosting(SYS_READ, words);
}

int host_write(const void *from, uint32_t length)
{
    const uint32_t words[] = {answers, (uint32_t)from, length};
    return (int)length - semihosting(SYS_WRITE, words);
}

/* Paints all below its own frame. */
void host_before(void)
{
    uint32_t *own;
    __asm__ volatile("mov %0, sp" : "=r"(own));
    for (volatile uint32_t *at = stack_low; at < own; at++)
        *at = PAINT;
}

void host_after(enum called which, uintptr_t stack)
{
    const volatile uint32_t *at = stack_low;
    while (*at == PAINT)
        at++;
    if (stack - (uintptr_t)at > most[which])
        most[which] = stack - (uintptr_t)at;
}

void start_c(void)
{
    for (volatile uint32_t *at = bss_low; at < bss_end; at++)
        *at = 0;
    cases = opened("cases", 5, READ_BYTES);
    answers = opened("answers", 7, WRITE_BYTES);
    answer_all();
    semihosting(SYS_CLOSE, &answers);
    answers = opened("stack", 5, WRITE_BYTES);
    if (host_write(most, sizeof most) != sizeof most)
        host_stop(3);
    semihosting(SYS_CLOSE, &answers);
    host_stop(0);
}

/* What the processor will not do: an instruction that it has not, a double word at an odd place, memory or stack beyond what is there.
 * The stack may be spent, so it begins anew. */
__attribute__((naked)) static void fault(void)
{
    __asm__("ldr r0, =stack_top\n"
            "mov sp, r0\n"
            "movs r0, %0\n"
            "bl host_stop" : : "i"(FAULT));
}

/* The memory's first words (ARMv7-M Architecture Reference Manual, B1.5.3): the stack's top, reset, and the fourteen other exceptions
 * of the processor, none of which may come here. */
__attribute__((section(".vectors"), used)) static void *const vectors[16] = {
    stack_top, start_c, fault, fault, fault, fault, fault, fault, fault, fault, fault, fault, fault, fault, fault, fault,
};
