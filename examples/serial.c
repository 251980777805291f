/*
 * Commands off a serial line, which hands over a few bytes at a time, and sometimes none.
 *
 * pietrunel_feed holds the bytes of a command until it is whole. One piece has the end of a command and
 * the beginning of the next, and in one the line has lost a byte: that command is refused at the byte
 * that tells, and the bridge goes on at the next byte that can begin a command, a star.
 */
#include "../include/pietrunel.h"

#include <stdio.h>
#include <string.h>

#define RECORDS 4
#define NOW 1700000000000u

static uint8_t table[RECORDS * PIETRUNEL_RECORD_SIZE];
static uint8_t reply[PIETRUNEL_REPLY_ROOM];
static uint8_t held[PIETRUNEL_MAX_COMMAND];
static size_t held_len;

/* What the line hands over. */
static const char *const pieces[] = {
    "*3\r\n$5\r\nEXS",
    "",
    "ET\r\n$7\r\nunit-17\r\n$4\r\n3.1V\r",
    "\n*2\r\n$5\r\nEXGET\r\n$7\r\nuni",
    "t-17\r\n",
    "*3\r\n$5\r\nEXSET\r\n$7\r\nunit17\r\n$4\r\n",
    "2.2V\r\n*2\r\n$5\r\nEXGET\r\n",
    "$7\r\nunit-17\r\n*1\r\n$4\r\nPING\r\n*",
};

/* Prints bytes between quotes, CR LF as C writes them. */
static void print_quoted(const uint8_t *bytes, size_t len)
{
    putchar('"');
    for (size_t i = 0; i < len; i++) {
        if (bytes[i] == '\r')
            fputs("\\r", stdout);
        else if (bytes[i] == '\n')
            fputs("\\n", stdout);
        else
            putchar(bytes[i]);
    }
    putchar('"');
}

/* True after a refusal: what comes before the next star is skipped. */
static bool skipping;

/* How many bytes of a piece are to be skipped. */
static size_t to_skip(const uint8_t *piece, size_t len)
{
    if (!skipping)
        return 0;
    const uint8_t *star = memchr(piece, '*', len);
    skipping = star == NULL;
    return skipping ? len : (size_t)(star - piece);
}

/* Feeds a piece and prints what it comes to; how many commands were answered. */
static int take(const uint8_t *piece, size_t len)
{
    int answered = 0;
    print_quoted(piece, len);
    putchar('\n');
    for (;;) {
        size_t skipped = to_skip(piece, len);
        if (skipped > 0)
            printf("    %zu skipped\n", skipped);
        piece += skipped;
        len -= skipped;

        size_t taken, reply_len;
        uint32_t number = pietrunel_feed(held, sizeof held, &held_len, piece, len, &taken,
                                         table, sizeof table, NOW, reply, sizeof reply, &reply_len);
        if (number == PIETRUNEL_MORE) {
            printf("    more, %zu held\n", held_len);
            return answered;
        }
        printf("    %zu taken, number %u, ", taken, (unsigned)number);
        print_quoted(reply, reply_len);
        putchar('\n');
        skipping = number == PIETRUNEL_MALFORMED_COMMAND;
        answered += number == PIETRUNEL_ANSWERED;
        piece += taken;
        len -= taken;
    }
}

int main(void)
{
    int answered = 0;
    for (size_t i = 0; i < sizeof pieces / sizeof pieces[0]; i++)
        answered += take((const uint8_t *)pieces[i], strlen(pieces[i]));
    return answered == 3 && held_len == 1 ? 0 : 1;
}
