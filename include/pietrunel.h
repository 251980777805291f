/*
 * Pietrunel: a small verified store for records with versions.
 *
 * A call takes a table, a time and one command in RESP2. It gives back a number, a reply and the
 * changed table. All bytes are borrowed for the call, also those held of a command that arrives in
 * pieces: the library keeps no state and no pointer, allocates nothing and calls nothing but memcpy,
 * memmove, memset and memcmp. Built for x86-64 it has no divide instruction.
 *
 * Commands: EXSET, EXGET, EXSETVER, EXINCRBY, EXCAS, EXCAD, EXAPPEND, EXPREPEND, EXGAE, DEL and
 * BITFIELD. EXINCRBY with NONEGATIVE makes 0 of a sum below 0, however far below; after that it tests
 * the sum against 64 signed bits, MIN and MAX.
 *
 * A number in a command is an optional plus or minus and one to twenty digits, extra zeros allowed:
 * +5 and 007 are numbers, -0 is 0, and after # an offset may be +5 or 007 too. The stored value that
 * EXINCRBY reads has the same form. Numbers are written, in a reply and by EXINCRBY, in the short form:
 * 0, or an optional minus and digits that begin with 1 to 9. The counts and lengths of RESP2 and the
 * widths of types are read in that form alone, without a minus.
 *
 * BITFIELD key [GET type offset | SET type offset number | INCRBY type offset increment
 *               | OVERFLOW WRAP|SAT|FAIL] ...
 * Subcommands run left to right on the value, and the reply is the array of their answers: GET the
 * number, SET the old one, INCRBY the new one or nil. A type is i1 to i64 or u1 to u63. An offset is
 * 0 to 2^32 - 1; it counts bits, bit 0 being the top bit of byte 0, and after # fields of the type.
 * A number for SET must fit its type. A field of SET or INCRBY must end at bit 511 or before, even if
 * nothing would be written; GET reads anywhere, and past the end all bits are 0. A write grows the
 * value with zeros to the field's last byte. An OVERFLOW holds for every INCRBY up to the next;
 * without one a sum wraps. The version rises by one if a SET or INCRBY wrote, flags and expiry stay;
 * else the table is untouched. An absent key is an empty value.
 *
 * Two parties, the owner and the installer, can share a table: pietrunel_shared_call works on the
 * caller's part of it, as on a table of its own.
 *
 * Threads: calls on different tables may run at the same time. Calls on one table must be ordered
 * by the caller, for example by a lock; also calls of two parties that share it, since each call reads
 * both parts. pietrunel_current_value and pietrunel_shared_current_value only read, so calls of these
 * two on one table may run together. Calls of pietrunel_feed with one buffer of held bytes must be
 * ordered too.
 *
 * Size on x86-64: a call takes less than 5 KiB of stack (measured: 3,280 bytes, a shared one 3,536, and
 * what memset takes), the library less than 34 KiB of code and constants (measured: 31.3 KiB).
 * bench/footprint measures both: the stack by the frames along the deepest chain of calls in the
 * machine code, the rest by `size`.
 *
 * Build the library with `rt lib` in crates/pietrunel, and link crates/pietrunel/out/libpietrunel.a.
 */
#ifndef PIETRUNEL_H
#define PIETRUNEL_H

#include <stdbool.h>
#include <stddef.h>
#include <stdint.h>

/* The version of the library. */
#define PIETRUNEL_VERSION "0.1.0"
#define PIETRUNEL_VERSION_MAJOR 0
#define PIETRUNEL_VERSION_MINOR 1
#define PIETRUNEL_VERSION_PATCH 0

#ifdef __cplusplus
extern "C" {
#endif

/*
 * The table: 1 to 256 records of 128 bytes, one after another, and nothing else. A new table is all
 * zeros. Whole numbers are stored low byte first, so a table can be moved between machines.
 *
 *   byte         holds
 *   0            0 empty, 1 in use
 *   1            length of the key, 1 to 24
 *   2            length of the value, 0 to 64
 *   3            0
 *   4 to 7       flags, 0 to 2^32 - 1
 *   8 to 15      version, 0 to 2^63 - 1
 *   16 to 23     expiry in milliseconds, 0 for none, at most 2^62
 *   24 to 47     key, then zeros
 *   48 to 111    value, then zeros
 *   112 to 127   zeros
 *
 * An empty record is 128 zeros. No two records in use have equal keys, expired ones counted: of the
 * whole table, or in a shared call no two of one part. A record is live if its expiry is 0 or greater
 * than the time of the call; others count as absent.
 */
#define PIETRUNEL_RECORD_SIZE 128
#define PIETRUNEL_MAX_RECORDS 256
#define PIETRUNEL_MAX_KEY 24
#define PIETRUNEL_MAX_VALUE 64
#define PIETRUNEL_MAX_COMMAND 512 /* bytes */
#define PIETRUNEL_MAX_WORDS 16    /* of a command */
#define PIETRUNEL_REPLY_ROOM 128  /* the shortest reply buffer taken; every reply fits in it */

/* The latest time and expiry, 2^62, and the highest version, 2^63 - 1. */
#define PIETRUNEL_MAX_TIME UINT64_C(4611686018427387904)
#define PIETRUNEL_MAX_VERSION UINT64_C(9223372036854775807)

/* Where the fields of a record begin. */
#define PIETRUNEL_AT_STATE 0
#define PIETRUNEL_AT_KEY_LENGTH 1
#define PIETRUNEL_AT_VALUE_LENGTH 2
#define PIETRUNEL_AT_FLAGS 4
#define PIETRUNEL_AT_VERSION 8
#define PIETRUNEL_AT_EXPIRY 16
#define PIETRUNEL_AT_KEY 24
#define PIETRUNEL_AT_VALUE 48

/*
 * The numbers that a call gives back. The first test that fails decides, in this order, but that 18
 * is tested within 1, before equal keys, and that BITFIELD tests 16 before 15. Numbers above 18, of
 * later libraries, act as 1 to 4 do.
 */
#define PIETRUNEL_ANSWERED 0 /* the command was carried out; also nil, 0, -1 and a stale EXCAS */

/* No reply: reply_len is 0, table and reply buffer are untouched. */
#define PIETRUNEL_DAMAGED_TABLE 1      /* its length or a record breaks the rules above */
#define PIETRUNEL_TIME_OUT_OF_RANGE 2  /* above 2^62 */
#define PIETRUNEL_SHORT_REPLY_BUFFER 3 /* under 128 bytes */
#define PIETRUNEL_MALFORMED_COMMAND 4  /* no array of 1 to 16 bulk strings in at most 512 bytes */
#define PIETRUNEL_BAD_BOUNDARY 18      /* 0, or not below the number of records; shared calls only */

/* An error reply, "-ERR ... CR LF": the table is untouched. */
#define PIETRUNEL_UNKNOWN_COMMAND 5
#define PIETRUNEL_WORD_COUNT 6           /* too few words, or too many for EXSETVER, EXCAD or DEL */
#define PIETRUNEL_TOO_LONG 7             /* key not 1 to 24 bytes, or value over 64 */
#define PIETRUNEL_SYNTAX 8               /* an option or a subcommand is wrong */
#define PIETRUNEL_NOT_A_NUMBER 9         /* a number, type or offset is wrong or out of its range */
#define PIETRUNEL_EXPIRE_TIME 10         /* a time word's number below 1, or expiry above 2^62 */
#define PIETRUNEL_MIN_ABOVE_MAX 11
#define PIETRUNEL_STALE_VERSION 12       /* VER differs from the live record's version */
#define PIETRUNEL_STORED_NOT_A_NUMBER 13 /* EXINCRBY on a value that is no number */
#define PIETRUNEL_SUM_OUT_OF_RANGE 14    /* outside 64 signed bits, MIN or MAX, after NONEGATIVE */
#define PIETRUNEL_VERSION_AT_TOP 15      /* it would rise above 2^63 - 1 */
#define PIETRUNEL_JOINED_TOO_LONG 16     /* joined to over 64 bytes, or a field past bit 511 written */
#define PIETRUNEL_TABLE_FULL 17          /* no record is free, of the caller's part in a shared call */

/*
 * Applies one command to a table at a time in milliseconds; gives back one of the numbers above.
 *
 * For 0 the table may have one record changed, and reply[0 .. *reply_len) holds the reply in RESP2.
 * For every other number the table is untouched. *reply_len is always written: 0 for 1 to 4, at
 * most 128 for others. Bytes of the reply buffer past *reply_len are always untouched. 18 does not
 * arise here.
 *
 * Table, command and reply buffer are borrowed. They may hold any bytes and have any length, and
 * the time may be any: the call ends with its answer. No pointer may be null, not even where a
 * length is 0. Table, reply and reply_len must not overlap each other or the command. Nothing
 * outside these bytes is read or written.
 */
uint32_t pietrunel_call(uint8_t *table, size_t table_len, uint64_t time_ms,
                        const uint8_t *command, size_t command_len,
                        uint8_t *reply, size_t reply_cap, size_t *reply_len);

/*
 * Tells where the value stands that the key of an EXGET or EXCAS has after it, and changes nothing.
 *
 * True if a value is shown: the *len bytes from *start on, of the command if *in_command (the EXCAS
 * would succeed), otherwise of the table. A value of no bytes is shown too.
 * False for any other command, for a key that is not live and for whatever pietrunel_call would
 * refuse, a short reply buffer aside; then *in_command is false, and *start and *len are 0.
 *
 * The three results are always written. They must not overlap each other or the borrowed bytes.
 */
bool pietrunel_current_value(const uint8_t *table, size_t table_len, uint64_t time_ms,
                             const uint8_t *command, size_t command_len,
                             bool *in_command, size_t *start, size_t *len);

/*
 * The party of a shared call. The boundary counts records: the owner has the records below it, the
 * installer the rest.
 */
#define PIETRUNEL_WHOLE 0 /* no party: the whole table, and the boundary is not looked at */
#define PIETRUNEL_OWNER 1
#define PIETRUNEL_INSTALLER 2

/*
 * Applies one command to a party's part of a table that is shared at a boundary. The command looks for
 * its key and takes a record only there. So both parties may use the same key, and number 17 may
 * arise while the other part has a free record. Every byte of the other part stays as it is.
 *
 * The tests come in this order, whichever party calls:
 *
 *   1    the length of the whole table, and each record in either part
 *   18   the boundary is 0, or not below the number of records; so a table of one record has no good
 *        boundary
 *   1    equal keys within a part, in either of the two
 *   2, 3, 4, and then those of the command, on the caller's part
 *
 * 18 acts as 1 to 4 do. All else is as in pietrunel_call. With PIETRUNEL_WHOLE it is that call; any
 * number that is no party gives 1, with *reply_len 0 and table and reply buffer untouched.
 *
 * The boundary is not stored: the parties agree on one and bring it to every call. Once an equal key
 * stands in both parts, calls on the whole table refuse it by 1, those of pietrunel_feed too, and
 * pietrunel_current_value shows no value.
 */
uint32_t pietrunel_shared_call(uint32_t party, size_t boundary,
                               uint8_t *table, size_t table_len, uint64_t time_ms,
                               const uint8_t *command, size_t command_len,
                               uint8_t *reply, size_t reply_cap, size_t *reply_len);

/*
 * Tells where the value stands that the key of a party's EXGET or EXCAS has after it, and changes
 * nothing. It is as pietrunel_current_value, but the key is looked for in the party's part alone, and
 * no value is shown for whatever pietrunel_shared_call would refuse, a short reply buffer aside.
 * *start is counted from the start of the command or of the whole table, also for the installer.
 */
bool pietrunel_shared_current_value(uint32_t party, size_t boundary,
                                    const uint8_t *table, size_t table_len, uint64_t time_ms,
                                    const uint8_t *command, size_t command_len,
                                    bool *in_command, size_t *start, size_t *len);

/* What pietrunel_feed gives back while a command is not whole; no other call does. */
#define PIETRUNEL_MORE 100

/*
 * Takes a command that arrives in pieces: the next piece_len bytes of it, also none, also more than
 * the command needs. Applies the command to the table once it is whole. The bytes of a command that is
 * not whole yet are held in a buffer of the caller's, of 512 bytes or more: before the first call
 * *held_len is 0, and between calls buffer and *held_len stay as they are. *taken tells how many bytes
 * of the piece were taken; offer the others again, they begin the next command:
 *
 *   static uint8_t held[PIETRUNEL_MAX_COMMAND];
 *   static size_t held_len = 0;
 *   size_t taken;
 *   while ((number = pietrunel_feed(held, sizeof held, &held_len, piece, piece_len, &taken, table,
 *                                   sizeof table, time_ms, reply, sizeof reply, &reply_len))
 *          != PIETRUNEL_MORE) {
 *       send(number, reply, reply_len);
 *       piece += taken;
 *       piece_len -= taken;
 *   }
 *
 * PIETRUNEL_MORE: the command is not whole yet. The whole piece is taken and stands behind what was
 * held; *held_len has grown by piece_len, to at most 511. The other bytes of the buffer, the reply
 * buffer and the table are untouched, and *reply_len is 0. Table, time and reply buffer are not looked
 * at before the command is whole: they may be any until then, and others at each call.
 *
 * Any other number ends the command: *held_len is 0 then, and the next byte begins another.
 *
 * - The command is whole: number, reply, *reply_len and table are those of pietrunel_call with the
 *   bytes that were held and those taken now. After numbers 1 to 3 too the command is gone and must be
 *   sent again. Where bytes were held, the buffer holds the whole command from its start on, and its
 *   bytes behind the command are untouched; where none were, all of the buffer is.
 * - 4, with *taken above 0: the last byte taken is the first after which no whole command, of 1 to 16
 *   words in at most 512 bytes, can follow: the 7 of "*17", or the last digit of "*1 CR LF $501". What
 *   comes after it stays with the caller. This too does not depend on table, time and reply buffer.
 *   *reply_len is 0; table, reply buffer and the buffer of held bytes are untouched.
 * - 4, with *taken 0: the bytes held cannot have come from this call. They do not begin a command, or
 *   are a whole one, or *held_len is above held_cap; or held_cap is below 512, and every call ends so
 *   (the loop above would not end). An empty piece is refused too. All is untouched as in the case
 *   before.
 *
 * *held_len, *taken and *reply_len are always written. No pointer may be null, not even where a length
 * is 0. The piece must not overlap what is written, and what is written must not overlap.
 */
uint32_t pietrunel_feed(uint8_t *held, size_t held_cap, size_t *held_len,
                        const uint8_t *piece, size_t piece_len, size_t *taken,
                        uint8_t *table, size_t table_len, uint64_t time_ms,
                        uint8_t *reply, size_t reply_cap, size_t *reply_len);

/*
 * Begins a command of 1 to 16 words at the front of a buffer of cap bytes, and gives back its length,
 * 4 or 5: the line "*words CR LF". Then pietrunel_add_word adds the words, one call each:
 *
 *   size_t n = pietrunel_begin_command(command, sizeof command, 2);
 *   n = pietrunel_add_word(command, sizeof command, n, (const uint8_t *)"EXGET", 5);
 *   n = pietrunel_add_word(command, sizeof command, n, (const uint8_t *)"foo", 3);
 *
 * Gives back 0 and changes nothing for any other number of words, and where cap is too small.
 */
size_t pietrunel_begin_command(uint8_t *command, size_t cap, size_t words);

/*
 * Adds a word, any word_len bytes, to the command that the first len bytes of a buffer of cap bytes
 * begin, and gives back the length then. The bytes before and behind the word's stay as they are.
 * Once every word is added the command is whole, and it has just the words that were given.
 *
 * Gives back 0 and changes nothing where the first len bytes are no command that lacks a word, and
 * where the length would be above cap or above 512. So a refusal can be tested once, at the end: with
 * len 0 every further word is refused, and pietrunel_call refuses a command of 0 bytes as malformed,
 * and also one that lacks a word.
 *
 * The pointers must not be null, also where a length is 0; the buffer must not overlap the word.
 */
size_t pietrunel_add_word(uint8_t *command, size_t cap, size_t len,
                          const uint8_t *word, size_t word_len);

#ifdef __cplusplus
}
#endif

#endif
