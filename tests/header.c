/*
 * The header by itself, as C and as C++: its numbers can be read by #if, and the library links.
 * Prints the version.
 */
#include "../include/pietrunel.h"

#include <stdio.h>

#if PIETRUNEL_RECORD_SIZE != 128 || PIETRUNEL_MAX_RECORDS != 256 || PIETRUNEL_MAX_KEY != 24 \
    || PIETRUNEL_MAX_VALUE != 64 || PIETRUNEL_MAX_COMMAND != 512 || PIETRUNEL_MAX_WORDS != 16 \
    || PIETRUNEL_REPLY_ROOM != 128
#error "a limit"
#endif

#if PIETRUNEL_MAX_TIME != 1ull << 62 || PIETRUNEL_MAX_VERSION != (1ull << 63) - 1
#error "a limit of 64 bits"
#endif

#if PIETRUNEL_AT_STATE != 0 || PIETRUNEL_AT_KEY_LENGTH != 1 || PIETRUNEL_AT_VALUE_LENGTH != 2 \
    || PIETRUNEL_AT_FLAGS != 4 || PIETRUNEL_AT_VERSION != 8 || PIETRUNEL_AT_EXPIRY != 16 \
    || PIETRUNEL_AT_KEY != 24 || PIETRUNEL_AT_VALUE != 48
#error "a place"
#endif

#if PIETRUNEL_ANSWERED != 0 || PIETRUNEL_DAMAGED_TABLE != 1 || PIETRUNEL_TIME_OUT_OF_RANGE != 2 \
    || PIETRUNEL_SHORT_REPLY_BUFFER != 3 || PIETRUNEL_MALFORMED_COMMAND != 4 \
    || PIETRUNEL_UNKNOWN_COMMAND != 5 || PIETRUNEL_WORD_COUNT != 6 || PIETRUNEL_TOO_LONG != 7 \
    || PIETRUNEL_SYNTAX != 8 || PIETRUNEL_NOT_A_NUMBER != 9 || PIETRUNEL_EXPIRE_TIME != 10 \
    || PIETRUNEL_MIN_ABOVE_MAX != 11 || PIETRUNEL_STALE_VERSION != 12 \
    || PIETRUNEL_STORED_NOT_A_NUMBER != 13 || PIETRUNEL_SUM_OUT_OF_RANGE != 14 \
    || PIETRUNEL_VERSION_AT_TOP != 15 || PIETRUNEL_JOINED_TOO_LONG != 16 \
    || PIETRUNEL_TABLE_FULL != 17 || PIETRUNEL_BAD_BOUNDARY != 18 || PIETRUNEL_MORE != 100
#error "a number"
#endif

#if PIETRUNEL_WHOLE != 0 || PIETRUNEL_OWNER != 1 || PIETRUNEL_INSTALLER != 2
#error "a party"
#endif

/* Constants of 64 bits in an expression, where a cast would be warned of. */
static const uint64_t limits[2] = {PIETRUNEL_MAX_TIME, PIETRUNEL_MAX_VERSION};

static uint8_t table[2 * PIETRUNEL_RECORD_SIZE];
static uint8_t reply[PIETRUNEL_REPLY_ROOM];
static const uint8_t command[] = {'*', '1', '\r', '\n', '$', '0', '\r', '\n', '\r', '\n'};
static uint8_t held[PIETRUNEL_MAX_COMMAND];
static size_t held_len = 0;

/* Feeds so many bytes of the command, from a byte on; true if all are taken, with this number. */
static bool feed(size_t from, size_t len, uint32_t number)
{
    size_t taken, reply_len;
    uint32_t given = pietrunel_feed(held, sizeof held, &held_len, command + from, len, &taken,
                                    table, sizeof table, 0, reply, sizeof reply, &reply_len);
    return given == number && taken == len;
}

/* The number of a party's call on two records shared at a boundary; UINT32_MAX if a value is shown, or
 * if there is a reply with a number that has none. */
static uint32_t shared(uint32_t party, size_t boundary)
{
    size_t reply_len, start = 1, len = 1;
    bool in_command = true;
    uint32_t number = pietrunel_shared_call(party, boundary, table, sizeof table, 0, command,
                                            sizeof command, reply, sizeof reply, &reply_len);
    bool shown = pietrunel_shared_current_value(party, boundary, table, sizeof table, 0, command,
                                                sizeof command, &in_command, &start, &len);
    bool replied = reply_len > 0, has_reply = number == PIETRUNEL_UNKNOWN_COMMAND;
    return !shown && !in_command && start + len == 0 && replied == has_reply ? number : UINT32_MAX;
}

/* True if each party has its number, and any number that is none is refused. */
static bool parties(void)
{
    return shared(PIETRUNEL_WHOLE, 0) == PIETRUNEL_UNKNOWN_COMMAND
           && shared(PIETRUNEL_OWNER, 1) == PIETRUNEL_UNKNOWN_COMMAND
           && shared(PIETRUNEL_INSTALLER, 1) == PIETRUNEL_UNKNOWN_COMMAND
           && shared(PIETRUNEL_OWNER, 0) == PIETRUNEL_BAD_BOUNDARY
           && shared(PIETRUNEL_INSTALLER, 2) == PIETRUNEL_BAD_BOUNDARY
           && shared(3, 1) == PIETRUNEL_DAMAGED_TABLE
           && shared(UINT32_MAX, 1) == PIETRUNEL_DAMAGED_TABLE;
}

int main(void)
{
    size_t reply_len, start, len;
    bool in_command;
    uint32_t last = pietrunel_call(table, sizeof table, limits[0], command, sizeof command,
                                   reply, sizeof reply, &reply_len);
    uint32_t late = pietrunel_call(table, sizeof table, limits[1], command, sizeof command,
                                   reply, sizeof reply, &reply_len);
    bool shown = pietrunel_current_value(table, sizeof table, 0, command, sizeof command,
                                         &in_command, &start, &len);
    bool fed = feed(0, 4, PIETRUNEL_MORE) && feed(4, 6, PIETRUNEL_UNKNOWN_COMMAND);
    printf("%s %d.%d.%d\n", PIETRUNEL_VERSION, PIETRUNEL_VERSION_MAJOR, PIETRUNEL_VERSION_MINOR,
           PIETRUNEL_VERSION_PATCH);
    bool right = last == PIETRUNEL_UNKNOWN_COMMAND && late == PIETRUNEL_TIME_OUT_OF_RANGE;
    return right && !shown && fed && parties() ? 0 : 1;
}
