// One call of gcd on a stack of its own: gcd A B prints the answer, and gcd A B stack how many bytes of that stack the call reached
// down to, its return address among them. The stack is painted before the call and looked over after it.
#include <stdint.h>
#include <stdio.h>
#include <stdlib.h>

enum { ROOM = 1 << 16, PAINT = 0xA5 };

uint32_t gcd(uint32_t a, uint32_t b);

static _Alignas(16) unsigned char stack[ROOM];

static uint32_t on_the_stack(uint32_t a, uint32_t b) {
    uint32_t answer;
    __asm__ volatile("mov %%rsp, %%rbx\n\tmov %3, %%rsp\n\tcall gcd\n\tmov %%rbx, %%rsp"
                     : "=a"(answer), "+D"(a), "+S"(b)
                     : "r"(stack + ROOM)
                     : "rbx", "rcx", "rdx", "r8", "r9", "r10", "r11", "memory", "cc");
    return answer;
}

int main(int n, char **words) {
    if (n < 3) return 2;
    for (unsigned i = 0; i < ROOM; i++) stack[i] = PAINT;
    uint32_t answer = on_the_stack((uint32_t)strtoul(words[1], NULL, 10), (uint32_t)strtoul(words[2], NULL, 10));
    unsigned unused = 0;
    while (n > 3 && unused < ROOM && stack[unused] == PAINT) unused++;
    printf("%u\n", n > 3 ? ROOM - unused : answer);
    return 0;
}
