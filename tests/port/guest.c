/* The session of a program or library for another system, in a program for
 * Linux on the same kind of processor: the bytes of the file IMAGE, which lie in
 * memory as they lie in the file, with the session at its byte ENTRY. It takes
 * no argument and calls no system, so only how functions are called differs. */
__asm__(".section .image, \"awx\"\n.balign 65536\nimage: .incbin \"" IMAGE "\"\n.text\n");
extern char image[];

#ifdef __x86_64__
typedef int __attribute__((ms_abi)) session_of_image(void);
#else
typedef int session_of_image(void);
#endif

int session(void) { return ((session_of_image *)(image + ENTRY))(); }
