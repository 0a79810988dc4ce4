/* The first code of a program: what runs its initializers and its `main`, and what `main` asks about the processor. Without it a program
 * needs glibc 2.34, with it glibc 2.17. tools/link links it. */

#define HIDDEN __attribute__((visibility("hidden")))

typedef void initializer(int, char **, char **);
extern initializer *const __init_array_start[] HIDDEN;
extern initializer *const __init_array_end[] HIDDEN;

/* Runs the initializers: by one the toolchain's C code keeps the arguments. */
HIDDEN void blobcrash_initialize(int argc, char **argv, char **envp) {
    for (initializer *const *next = __init_array_start; next != __init_array_end; next++)
        (*next)(argc, argv, envp);
}

/* The program starts here, as by crt1.o of glibc before 2.34: that of a later one leaves the initializers to the C library. The stack has
 * argc, argv and envp, and rdx a function that is to be called at exit. */
__asm__(".symver __libc_start_main, __libc_start_main@GLIBC_2.2.5\n"
        ".text\n"
        ".globl _start\n"
        ".type _start, @function\n"
        "_start:\n"
        "    xor %ebp, %ebp\n"
        "    mov %rdx, %r9\n"
        "    pop %rsi\n"
        "    mov %rsp, %rdx\n"
        "    and $-16, %rsp\n"
        "    push %rax\n"
        "    push %rsp\n"
        "    xor %r8d, %r8d\n"
        "    lea blobcrash_initialize(%rip), %rcx\n"
        "    mov main@GOTPCREL(%rip), %rdi\n"
        "    call *__libc_start_main@GOTPCREL(%rip)\n"
        "    hlt\n"
        ".size _start, . - _start\n");

struct features {
    unsigned int found[4], active[4];
};

/* The function of glibc 2.33 by which `main` finds out whether the processor has the instructions of the code. It asks for the leaves 1 (number
 * 0) and 0x80000001 (number 2). Those features of them are active that the processor has. */
HIDDEN const struct features *__x86_get_cpuid_feature_leaf(unsigned int number) {
    static struct features leaves[3];
    struct features *leaf = &leaves[number < 3 ? number : 1];
    if (number == 0 || number == 2) {
        unsigned int *to = leaf->found;
        __asm__("cpuid" : "=a"(to[0]), "=b"(to[1]), "=c"(to[2]), "=d"(to[3]) : "a"(number == 0 ? 1u : 0x80000001u), "c"(0u));
        for (int at = 0; at < 4; at++)
            leaf->active[at] = to[at];
    }
    return leaf;
}
