/*
 * Owner and installer share one table, at a boundary of two records.
 *
 * Both keep a record under the key unit-17: the owner its voltage, the installer a note. Neither finds
 * or changes the record of the other. The owner's part gets full while the installer still has a free
 * record. A boundary that leaves a party no record is refused, and a call without a boundary refuses
 * the table, since it finds two records with equal keys.
 */
#include "../include/pietrunel.h"

#include <stdio.h>
#include <stdlib.h>
#include <string.h>

#define RECORDS 4
#define BOUNDARY 2
#define NOW 1700000000000u

static uint8_t table[RECORDS * PIETRUNEL_RECORD_SIZE];
static const char *const names[] = {"whole", "owner", "installer"};

/* Builds the command of the words of a line, between single blanks; without one the program ends. */
static size_t build(uint8_t *command, size_t cap, const char *line)
{
    size_t words = 1;
    for (const char *c = line; *c != '\0'; c++)
        words += *c == ' ';
    size_t len = pietrunel_begin_command(command, cap, words);
    for (const char *word = line; words > 0; words--) {
        size_t word_len = strcspn(word, " ");
        len = pietrunel_add_word(command, cap, len, (const uint8_t *)word, word_len);
        word += word_len + 1;
    }
    if (len == 0) {
        fprintf(stderr, "parties: too many words or bytes for a command: %s\n", line);
        exit(1);
    }
    return len;
}

/* Sends a command for a party at a boundary and prints what is answered; gives back the number. */
static uint32_t send_at(uint32_t party, size_t boundary, const char *line)
{
    uint8_t command[PIETRUNEL_MAX_COMMAND], reply[PIETRUNEL_REPLY_ROOM];
    size_t reply_len, len = build(command, sizeof command, line);
    uint32_t number = pietrunel_shared_call(party, boundary, table, sizeof table, NOW, command, len,
                                            reply, sizeof reply, &reply_len);
    printf("%-9s %zu  %-21s %2u%s", names[party], boundary, line, (unsigned)number,
           reply_len > 0 ? "  " : "");
    for (size_t i = 0; i < reply_len; i++) {
        if (reply[i] == '\r')
            fputs(i + 2 < reply_len ? " | " : "", stdout);
        else if (reply[i] != '\n')
            putchar(reply[i]);
    }
    putchar('\n');
    return number;
}

/* At the boundary that both have agreed on. */
static uint32_t send(uint32_t party, const char *line)
{
    return send_at(party, BOUNDARY, line);
}

/* Prints the value that a party's EXGET shows, and gives back where in the table it stands. */
static size_t print_value(uint32_t party, const char *line)
{
    uint8_t command[PIETRUNEL_MAX_COMMAND];
    size_t start, len, command_len = build(command, sizeof command, line);
    bool in_command;
    if (pietrunel_shared_current_value(party, BOUNDARY, table, sizeof table, NOW, command,
                                       command_len, &in_command, &start, &len))
        printf("the %s has %.*s in record %zu\n", names[party], (int)len,
               (const char *)table + start, start / PIETRUNEL_RECORD_SIZE);
    return start;
}

int main(void)
{
    send(PIETRUNEL_OWNER, "EXSET unit-17 3.1V");
    send(PIETRUNEL_INSTALLER, "EXGET unit-17");
    send(PIETRUNEL_INSTALLER, "EXSET unit-17 cellar");

    /* Each record has its own version, so neither makes a write of the other stale. */
    send(PIETRUNEL_OWNER, "EXCAS unit-17 3.0V 1");
    send(PIETRUNEL_INSTALLER, "EXCAS unit-17 attic 1");
    size_t owners = print_value(PIETRUNEL_OWNER, "EXGET unit-17");
    size_t installers = print_value(PIETRUNEL_INSTALLER, "EXGET unit-17");
    bool apart = owners == PIETRUNEL_AT_VALUE
                 && installers == BOUNDARY * PIETRUNEL_RECORD_SIZE + PIETRUNEL_AT_VALUE;

    /* The owner has two records, and no third. */
    send(PIETRUNEL_OWNER, "EXSET unit-18 3.2V");
    bool full = send(PIETRUNEL_OWNER, "EXSET unit-19 3.3V") == PIETRUNEL_TABLE_FULL;
    bool room = send(PIETRUNEL_INSTALLER, "EXSET unit-19 hall") == PIETRUNEL_ANSWERED;

    bool bad = send_at(PIETRUNEL_OWNER, 0, "EXGET unit-17") == PIETRUNEL_BAD_BOUNDARY
               && send_at(PIETRUNEL_OWNER, RECORDS, "EXGET unit-17") == PIETRUNEL_BAD_BOUNDARY;
    bool twice = send(PIETRUNEL_WHOLE, "EXGET unit-17") == PIETRUNEL_DAMAGED_TABLE;
    return apart && full && room && bad && twice ? 0 : 1;
}
