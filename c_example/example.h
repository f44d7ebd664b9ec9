/*
 * What the example programs share: how they end, reading a project file and numbers, and telling a refusal.
 */
#ifndef EXAMPLE_H
#define EXAMPLE_H

#include "crpd.h"

enum { DONE = 0, REFUSED = 1, NOT_READ = 2 };

/* The pair numbers of a file, with its n and its number of tasks. */
struct table {
    int cache_blocks;
    int tasks;
    uint16_t numbers[CRPD_TABLE_LENGTH];
};

/*
 * Reads the named file to the front of a list of the longest file's length and one more, so that a longer one is refused.
 * Answers 1, or tells why not and answers 0.
 */
int read_file(const char *name, uint8_t *file, size_t *length);

/* Reads a number of 32 bits, digits and nothing else, and answers 1, or 0 if it is none. */
int read_number(const char *text, uint32_t *number);

/* Prints a refusal as crpd does, and tells it in words on standard error. */
void print_refusal(uint8_t check, uint8_t task);

/* Fills the table of the named file and answers DONE, or tells why not and answers how the program is to end. */
int find_table(const char *name, struct table *table);

#endif
