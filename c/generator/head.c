/* Hontkhale's queue as one file of C11, for gcc and clang. Made by c/generate: don't edit it.
 *
 * The library is proved in Rattle, whose compiler lowers it to LLVM's instructions. This is these instructions in C, one
 * for one: the proof is of what they were made from. Whoever builds this file trusts also the translator and a C compiler.
 */
#include <stdbool.h>
#include <stddef.h>
#include <stdint.h>
#include <stdlib.h>
#include <string.h>

#if !defined(__GNUC__)
#error "hontkhale.c needs gcc or clang"
#elif __BYTE_ORDER__ != __ORDER_LITTLE_ENDIAN__ || __SIZEOF_POINTER__ != 8
#error "hontkhale.c is for little-endian targets with pointers of 64 bits"
#endif
