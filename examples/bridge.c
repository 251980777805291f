/*
 * The battery complaint, replayed against the store.
 *
 * Two tasks of the bridge read a unit's record. The rest task stores a rested sample whose text is
 * equal to the old one. The radio task then writes its low figure, sampled while the cells sag,
 * under the version that it had read. That write must not pass: the store answers stale, and the
 * radio task reads again, samples again and tries once more.
 */
#include "../include/pietrunel.h"

#include <stdio.h>
#include <stdlib.h>
#include <string.h>

#define RECORDS 4
#define NOW 1700000000000u

static uint8_t table[RECORDS * PIETRUNEL_RECORD_SIZE];
static uint8_t reply[PIETRUNEL_REPLY_ROOM];
static size_t reply_len;

/* Builds the command of the words of a line, between single blanks; without one the program ends. */
static size_t build(uint8_t *command, size_t cap, const char *line)
{
    size_t words = 1;
    for (const char *c = line; *c != '\0'; c++)
        words += *c == ' ';
    size_t len = pietrunel_begin_command(command, cap, words);
    for (const char *word = line; words > 0; words--) {
        size_t word_len = strcspn(word, " ");
        len = pietrunel_add_word(command, cap, len, (const uint8_t *)word, word_len);
        word += word_len + 1;
    }
    if (len == 0) {
        fprintf(stderr, "bridge: too many words or bytes for a command: %s\n", line);
        exit(1);
    }
    return len;
}

/* Prints bytes on one line, CR LF as a bar. */
static void print_line(const uint8_t *bytes, size_t len)
{
    for (size_t i = 0; i < len; i++) {
        if (bytes[i] == '\r')
            fputs(i + 2 < len ? " | " : "", stdout);
        else if (bytes[i] != '\n')
            putchar(bytes[i]);
    }
    putchar('\n');
}

/* Sends a command for a task and prints what is answered. */
static void send(const char *task, const char *line)
{
    uint8_t command[PIETRUNEL_MAX_COMMAND];
    size_t len = build(command, sizeof command, line);
    uint32_t number = pietrunel_call(table, sizeof table, NOW, command, len,
                                     reply, sizeof reply, &reply_len);
    printf("%-6s %-34s %2u  ", task, line, (unsigned)number);
    print_line(reply, reply_len);
}

/* The version at the end of a reply, behind its last colon. */
static unsigned long last_version(void)
{
    unsigned long version = 0;
    for (size_t i = 0; i < reply_len; i++) {
        if (reply[i] == ':')
            version = 0;
        else if (reply[i] >= '0' && reply[i] <= '9')
            version = 10 * version + (unsigned long)(reply[i] - '0');
    }
    return version;
}

/* Writes a text back under the version that was read; true if it was answered OK. */
static bool write_back(const char *task, const char *text, unsigned long version)
{
    char line[80];
    snprintf(line, sizeof line, "EXCAS unit-17 %s %lu KEEPTTL", text, version);
    send(task, line);
    return reply_len > 6 && memcmp(reply, "*3\r\n+O", 6) == 0;
}

int main(void)
{
    send("bridge", "EXSET unit-17 3.1V");

    send("radio", "EXGET unit-17");
    unsigned long radio = last_version();
    send("rest", "EXGET unit-17");
    unsigned long rest = last_version();

    bool rested = write_back("rest", "3.1V", rest);
    bool sagged = write_back("radio", "2.2V", radio);
    printf("the rested sample was %s, the low figure was %s\n", rested ? "stored" : "stale",
           sagged ? "stored" : "stale");

    send("radio", "EXGET unit-17");
    bool again = write_back("radio", "3.0V", last_version());
    send("bridge", "EXGET unit-17");
    return rested && !sagged && again ? 0 : 1;
}
