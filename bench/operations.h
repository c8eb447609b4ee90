/* What main.c is given by each reader: the operations that are counted. */
#ifndef OPERATIONS_H
#define OPERATIONS_H

#include <stddef.h>
#include <stdint.h>

/* As many bytes as the largest stored case may have. */
enum { LARGEST = 70000 };

/* The record of the file, and how many bytes it has. */
extern uint8_t record[LARGEST];
extern size_t length;

/* An operation: what is made ready before it, or null, and the operation itself, whose answer has a number in its lowest 8 bits, 0 for done. */
typedef struct {
    const char *name;
    void (*prepare)(void);
    uint64_t (*once)(void);
} operation;

/* The reader's operations; the last has no name. */
extern const operation operations[];

/* Says what is wrong, and ends. */
void stop(const char *why);

#endif
