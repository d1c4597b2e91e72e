/*
 * What both examples in C need: numbers as bytes, for a configuration that is written out, and a memory as the
 * functions take it. Assumes that each is used in an initialiser or an argument list.
 */
#ifndef COMMON_H
#define COMMON_H

#include "replayframes.h"

/* The bytes of a number, little-endian. */
#define U16(n) (n) & 255, (n) >> 8
#define U32(n) U16((n) & 0xffff), U16((n) >> 16)
#define U64(n) U32((n) & 0xffffffff), U32((uint64_t)(n) >> 32)

/* A memory, which is an array: a pointer and how many elements. */
#define LENT(memory) (memory), sizeof(memory) / sizeof((memory)[0])

#endif
