/* What the library and the host call of the compiler's run-time library on ARM (Run-time ABI for the Arm Architecture, 4.3.4 and
 * 4.3.2): filling and moving bytes, and division of 64-bit numbers. Short rather than fast. */
#include <stdint.h>

void *memmove(void *to, const void *from, uint32_t length)
{
    volatile uint8_t *t = to;
    const volatile uint8_t *f = from;
    if ((uintptr_t)to < (uintptr_t)from)
        for (uint32_t i = 0; i < length; i++)
            t[i] = f[i];
    else
        for (uint32_t i = length; i > 0; i--)
            t[i - 1] = f[i - 1];
    return to;
}

void *memcpy(void *to, const void *from, uint32_t length) { return memmove(to, from, length); }

void *memset(void *to, int byte, uint32_t length)
{
    volatile uint8_t *t = to;
    for (uint32_t i = 0; i < length; i++)
        t[i] = (uint8_t)byte;
    return to;
}

void __aeabi_memcpy(void *to, const void *from, uint32_t length) { memmove(to, from, length); }
void __aeabi_memcpy4(void *to, const void *from, uint32_t length) { memmove(to, from, length); }
void __aeabi_memcpy8(void *to, const void *from, uint32_t length) { memmove(to, from, length); }
void __aeabi_memmove(void *to, const void *from, uint32_t length) { memmove(to, from, length); }
void __aeabi_memmove4(void *to, const void *from, uint32_t length) { memmove(to, from, length); }
void __aeabi_memmove8(void *to, const void *from, uint32_t length) { memmove(to, from, length); }
void __aeabi_memset(void *to, uint32_t length, int byte) { memset(to, byte, length); }
void __aeabi_memset4(void *to, uint32_t length, int byte) { memset(to, byte, length); }
void __aeabi_memset8(void *to, uint32_t length, int byte) { memset(to, byte, length); }
void __aeabi_memclr(void *to, uint32_t length) { memset(to, 0, length); }
void __aeabi_memclr4(void *to, uint32_t length) { memset(to, 0, length); }
void __aeabi_memclr8(void *to, uint32_t length) { memset(to, 0, length); }

/* The quotient, and the remainder through the pointer; a divisor of 0 gives all ones. */
uint64_t divided(uint64_t number, uint64_t divisor, uint64_t *remainder)
{
    uint64_t quotient = 0, rest = 0;
    for (int i = 63; i >= 0; i--) {
        uint64_t carried = rest >> 63;
        rest = rest << 1 | (number >> i & 1);
        if (carried || rest >= divisor) {
            rest -= divisor;
            quotient |= (uint64_t)1 << i;
        }
    }
    *remainder = rest;
    return quotient;
}

/* number in r0 and r1, divisor in r2 and r3; quotient in r0 and r1, remainder in r2 and r3 */
__attribute__((naked)) void __aeabi_uldivmod(void)
{
    __asm__("push {r6, lr}\n"
            "sub sp, #16\n"
            "add r6, sp, #8\n"
            "str r6, [sp]\n"
            "bl divided\n"
            "ldr r2, [sp, #8]\n"
            "ldr r3, [sp, #12]\n"
            "add sp, #16\n"
            "pop {r6, pc}");
}
