/*
 * The fault bits of a unit, in one record.
 *
 * Fault n of eight is bit n of the value, and a counter of resets stands in the four bits behind
 * them. BITFIELD sets and reads single faults, reads all eight at once, and counts resets up to 15.
 * Whoever only reads leaves the record as it is, so while its version stays no fault has changed.
 */
#include "../include/pietrunel.h"

#include <stdio.h>
#include <stdlib.h>
#include <string.h>

#define RECORDS 4
#define FAULTS 8
#define NOW 1700000000000u

static uint8_t table[RECORDS * PIETRUNEL_RECORD_SIZE];
static uint8_t reply[PIETRUNEL_REPLY_ROOM];
static size_t reply_len;

/* Calls the store with the words of a line, between single blanks; ends the program if it refuses. */
static void call(const char *line)
{
    uint8_t command[PIETRUNEL_MAX_COMMAND];
    size_t words = 1;
    for (const char *c = line; *c != '\0'; c++)
        words += *c == ' ';
    size_t len = pietrunel_begin_command(command, sizeof command, words);
    for (const char *word = line; words > 0; words--) {
        size_t word_len = strcspn(word, " ");
        len = pietrunel_add_word(command, sizeof command, len, (const uint8_t *)word, word_len);
        word += word_len + 1;
    }
    uint32_t number = pietrunel_call(table, sizeof table, NOW, command, len,
                                     reply, sizeof reply, &reply_len);
    if (number != PIETRUNEL_ANSWERED) {
        fprintf(stderr, "faults: refused with number %u: %s\n", (unsigned)number, line);
        exit(1);
    }
}

/* The number at the end of a reply, behind its last colon. */
static unsigned long last_number(void)
{
    unsigned long number = 0;
    for (size_t i = 0; i < reply_len; i++) {
        if (reply[i] == ':')
            number = 0;
        else if (reply[i] >= '0' && reply[i] <= '9')
            number = 10 * number + (unsigned long)(reply[i] - '0');
    }
    return number;
}

/* The version of the record. */
static unsigned long version(void)
{
    call("EXGET unit-17");
    return last_number();
}

/* Sends a BITFIELD and prints its answers on one line, and the version after it. */
static void send(const char *line)
{
    call(line);
    printf("%-50s ", line);
    for (size_t i = 0; i < reply_len; i++) {
        if (reply[i] == '\r')
            fputs(i + 2 < reply_len ? " | " : "", stdout);
        else if (reply[i] != '\n')
            putchar(reply[i]);
    }
    printf(" (version %lu)\n", version());
}

/* Prints which faults are set. Fault 0 is the highest of the eight bits. */
static unsigned long print_faults(void)
{
    call("BITFIELD unit-17 GET u8 0");
    unsigned long faults = last_number();
    fputs("faults set:", stdout);
    for (int n = 0; n < FAULTS; n++)
        if (faults >> (FAULTS - 1 - n) & 1)
            printf(" %d", n);
    putchar('\n');
    return faults;
}

int main(void)
{
    /* Fault 3 comes, then 0 and 5; SET answers what was there before. Fault 3 goes. */
    send("BITFIELD unit-17 SET u1 #3 1 GET u8 0");
    send("BITFIELD unit-17 SET u1 #0 1 SET u1 #5 1 GET u8 0");
    send("BITFIELD unit-17 SET u1 #3 0 GET u8 0");

    /* Twenty resets in a counter that stops at 15, and one that would not fit and is not counted. */
    for (int i = 0; i < 19; i++)
        call("BITFIELD unit-17 OVERFLOW SAT INCRBY u4 8 1");
    send("BITFIELD unit-17 OVERFLOW SAT INCRBY u4 8 1");
    send("BITFIELD unit-17 OVERFLOW FAIL INCRBY u4 8 1");

    /* What only reads leaves the version. */
    unsigned long before = version();
    send("BITFIELD unit-17 GET u1 #3 GET u1 #5 GET u4 8");
    unsigned long faults = print_faults();
    bool kept = version() == before;
    printf("reading has %s the version\n", kept ? "left" : "raised");
    return faults == 0x84 && kept ? 0 : 1;
}
