/*
 * virt.c - where qemu's board 'virt' starts, with a RISC-V of 32 bits or an
 * AArch64: a stack, faults that are told, text and end through the debugger's
 * door (semihosting).
 */
#include <stddef.h>
#include <stdint.h>

int main(int argc, char **argv);
_Noreturn void exit(int status);
void tiny_write(const char *text, size_t length);
_Noreturn void tiny_exit(int status);

#define SYS_OPEN 0x01
#define SYS_WRITE0 0x04
#define SYS_WRITE 0x05
#define SYS_EXIT_EXTENDED 0x20
#define APPLICATION_EXIT 0x20026

#ifdef __riscv

__asm__(".section .start,\"ax\"\n"
        ".globl start\n"
        "start: la sp, stack_end\n"
        "la t0, fault\n"
        "csrw mtvec, t0\n"
        "j begin\n"
        ".text\n"
        ".balign 4\n");

static uintptr_t knock(uintptr_t what, const void *with)
{
    register uintptr_t a0 __asm__("a0") = what;
    register const void *a1 __asm__("a1") = with;
    __asm__ volatile(".option push\n.option norvc\n.balign 16\n"
                     "slli x0, x0, 0x1f\nebreak\nsrai x0, x0, 7\n.option pop"
                     : "+r"(a0) : "r"(a1) : "memory");
    return a0;
}

#else

/* Registers for floating point are let in, since the compiler copies by them.
 * Faults are told.  Memory is mapped as it lies and as memory: with no map every
 * address would be a device's, at which no byte may lie unaligned. */
__asm__(".section .start,\"ax\"\n"
        ".globl start\n"
        "start: adrp x0, stack_end\n"
        "add sp, x0, :lo12:stack_end\n"
        "mov x0, #(3 << 20)\n"
        "msr cpacr_el1, x0\n"
        "adrp x0, faults\n"
        "add x0, x0, :lo12:faults\n"
        "msr vbar_el1, x0\n"
        "mov x0, #0xFF\n"
        "msr mair_el1, x0\n"
        "ldr x0, =0x200803519\n" /* 39 bits of address, pages of 4 KiB, cached */
        "msr tcr_el1, x0\n"
        "adrp x0, map\n"
        "add x0, x0, :lo12:map\n"
        "msr ttbr0_el1, x0\n"
        "isb\n"
        "mrs x0, sctlr_el1\n"
        "orr x0, x0, #1\n"
        "msr sctlr_el1, x0\n"
        "isb\n"
        "b begin\n"
        ".ltorg\n"
        ".balign 4096\n"
        "map: .quad 0, 0x40000701\n" /* the second GiB: memory, at its own address */
        ".fill 510, 8, 0\n"
        ".balign 2048\n"
        "faults: .rept 16\n"
        "b fault\n"
        ".balign 128\n"
        ".endr\n"
        ".text\n");

static uintptr_t knock(uintptr_t what, const void *with)
{
    register uintptr_t x0 __asm__("x0") = what;
    register const void *x1 __asm__("x1") = with;
    __asm__ volatile("hlt 0xF000" : "+r"(x0) : "r"(x1) : "memory");
    return x0;
}

#endif

void tiny_write(const char *text, size_t length)
{
    static uintptr_t console;
    if (console == 0) {
        uintptr_t out[3] = {(uintptr_t)":tt", 4, 3}; /* standard output, to write */
        console = knock(SYS_OPEN, out);
    }
    uintptr_t block[3] = {console, (uintptr_t)text, length};
    knock(SYS_WRITE, block);
}

void tiny_exit(int status)
{
    uintptr_t block[2] = {APPLICATION_EXIT, (uintptr_t)status};
    for (;;) {
        knock(SYS_EXIT_EXTENDED, block);
    }
}

__attribute__((used, aligned(4))) void fault(void)
{
    knock(SYS_WRITE0, "the board faulted\n");
    tiny_exit(1);
}

__attribute__((used)) void begin(void)
{
    static char *words[] = {"program", "file", NULL};
    exit(main(2, words));
}
