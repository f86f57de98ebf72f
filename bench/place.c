/*
 * place.c: linked just before the library, so that the library's code begins PLACE bytes after a multiple of 64.
 *
 * The linker puts that code at any multiple of 16, and on some processors its times depend on which. Without this file
 * a change anywhere in the benchmark could change the library's times.
 */
#ifndef PLACE
#define PLACE 0
#endif

#define TEXT(number) #number
/* R: the linker keeps the section, though nothing names it. */
#define SKIP(number) ".section .text.place,\"axR\",@progbits\n.p2align 6\n.skip 64 + " TEXT(number) "\n"

__asm__(SKIP(PLACE));

/* C wants a declaration in every file. */
typedef int place_declares_nothing;
