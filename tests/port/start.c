/* A program for Linux without a C library: its exit status is what the session
 * answers. */
#if defined __x86_64__
__asm__(".globl start\nstart: andq $-16, %rsp\ncall session\nmovl %eax, %edi\nmovl $60, %eax\nsyscall\n");
#elif defined __aarch64__
__asm__(".globl start\nstart: bl session\nmov x8, #93\nsvc #0\n");
#elif defined __riscv
__asm__(".globl start\nstart: call session\nli a7, 93\necall\n");
#endif
