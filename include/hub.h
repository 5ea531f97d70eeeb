/* Pagelantern: a WAMP version 2 broker and dealer for the realm "hub.bus", as a step function on lent bytes.
 *
 * Link libhub_ffi.a, which `tools/build archive` writes to target/staticlib/. The functions keep nothing between calls, take no
 * memory and start no thread; different states may be stepped by different threads at once.
 *
 * include/check compares every name, value and prototype here with the definitions and the code, so the comments name a value where they
 * need one.
 */
#ifndef HUB_H
#define HUB_H

#include <stddef.h>
#include <stdint.h>

#ifdef __cplusplus
extern "C" {
#endif

/* The length of the state. An empty hub is HUB_STATE_LEN zero bytes. The host keeps the bytes between steps and changes none of them. */
#define HUB_STATE_LEN 9688

/* The slots are the numbers below HUB_SLOTS: one for each connection of the host's. */
#define HUB_SLOTS 8

/* A message has at most HUB_MESSAGE_LEN bytes, and is not empty; another length is a protocol violation of its sender. */
#define HUB_MESSAGE_LEN 2048

/* The lent number of a message is not zero, and at most HUB_LAST_NUMBER: two to the power of fifty-three. */
#define HUB_LAST_NUMBER 9007199254740992

/* Room enough for every step's output, and for that of every step that is no PUBLISH: with so many bytes lent, HUB_NO_ROOM never arises
 * (proved: crates/room/specs/Enough.antt). */
#define HUB_OUT_LEN 3000000
#define HUB_OUT_LEN_NO_PUBLISH 13000

/* A done step writes its output: the number n of messages, in HUB_OUT_COUNT_LEN bytes; n entries of HUB_OUT_ENTRY_LEN bytes, each the slot
 * in one byte and the message's length in the others; then the n messages in the same order. Numbers are big-endian. Bytes of `out` past
 * the count keep their values. A step that sends nothing writes that n is zero, so it needs HUB_OUT_COUNT_LEN bytes. */
#define HUB_OUT_COUNT_LEN 2
#define HUB_OUT_ENTRY_LEN 3

/* The stack that a call needs at most, in bytes, with its arguments and its return address. It is not proved but measured:
 * reference/against/check takes a bound from the archive's machine code, runs every call of its comparison on a stack that tells what was
 * used, and fails where either is more. */
#define HUB_STACK_LEN 65536

/* Each function answers one number: the count of bytes written to `out`, and, in the lowest byte, the refusal. */
#define HUB_COUNT(answer) ((size_t)((answer) >> 8))
#define HUB_REFUSAL(answer) ((unsigned)((answer) & 255))

/* The refusals. The checks run in this order. With a refusal the count is zero, and state and output keep all their bytes. */
enum hub_refusal {
    HUB_DONE = 0,
    HUB_BAD_STATE = 1,  /* the state's length is another, or its bytes break a state rule */
    HUB_BAD_SLOT = 2,   /* the slot number is HUB_SLOTS or more */
    HUB_WRONG_TIME = 3, /* attaching a slot that is not closed; detaching a closed one, or a message on it */
    HUB_BAD_NUMBER = 4, /* the lent number is zero or above HUB_LAST_NUMBER; or a HELLO would be welcomed, and it is an open session's ID */
    HUB_NO_ROOM = 5     /* the output needed is longer than out_len */
};

/* A done step leaves the new state in `state`. No function asks anything of its arguments but this: each pointer is good for its length,
 * and the buffers do not overlap. */

/* A connection came that speaks JSON: attaches a closed slot, which then waits for HELLO. Sends nothing. */
uint64_t hub_attach(uint64_t slot, uint8_t *state, size_t state_len, uint8_t *out, size_t out_len);

/* The same for a connection that speaks MessagePack: what the slot sends and is sent is in that format until the slot is closed. */
uint64_t hub_attach_msgpack(uint64_t slot, uint8_t *state, size_t state_len, uint8_t *out, size_t out_len);

/* The connection is gone: closes an attached or open slot and ends its session, if it has one. Sends wamp.error.canceled to each session
 * that waits for an answer of the ended one. */
uint64_t hub_detach(uint64_t slot, uint8_t *state, size_t state_len, uint8_t *out, size_t out_len);

/* The slot sent a message. `number` is the lent number, a random one of the host's: it becomes the session's ID on HELLO and the
 * publication's on PUBLISH. `message` is read and not changed; it may hold any bytes. A message that breaks the protocol is no
 * refusal: the step is done, its output is ABORT to the slot, and the slot is closed. */
uint64_t hub_message(uint64_t slot, uint64_t number, const uint8_t *message, size_t message_len,
                     uint8_t *state, size_t state_len, uint8_t *out, size_t out_len);

/* Settings: the realm, which slots may register, call, publish or subscribe under which prefixes, and how long a call may wait. The depot
 * keeps them as a file of at most HUB_SETTINGS_FILE_LEN bytes; lent they are HUB_SETTINGS_LEN bytes. No step takes them yet. */
#define HUB_SETTINGS_LEN 4357
#define HUB_SETTINGS_FILE_LEN 4386

/* The refusals of a file, besides HUB_NO_ROOM, which is the last. The first that applies is given. */
enum hub_settings_refusal {
    HUB_SETTINGS_UNKNOWN_VERSION = 6, /* a version that the reader does not know */
    HUB_SETTINGS_CUT_SHORT = 7,       /* no version; a contents page or a section that reaches past the end */
    HUB_SETTINGS_OVERLAP = 8,         /* a section's byte in another section or in the contents page */
    HUB_SETTINGS_WRONG_KINDS = 9,     /* a kind unknown to the version, missing or twice */
    HUB_SETTINGS_WRONG_LENGTH = 10,   /* a body whose length is not that of what it holds */
    HUB_SETTINGS_TOO_MANY_RULES = 11, /* more rules than settings have */
    HUB_SETTINGS_RULE_TWICE = 12,     /* equal slot, action and prefix in different rules */
    HUB_SETTINGS_OUTSIDE_RULE = 13    /* a realm that is no exact text, a prefix that is no prefix text, a number out of range */
};

/* Each function here answers as a step does, and writes nothing to `out` where it is refused. */

/* Reads a file to lent settings. The first function takes files of every version, the second those of the first version alone. A file of
 * the first version has no wait, and is read with the usual one. */
uint64_t hub_settings_read(const uint8_t *file, size_t file_len, uint8_t *out, size_t out_len);
uint64_t hub_settings_read_1(const uint8_t *file, size_t file_len, uint8_t *out, size_t out_len);

/* Writes lent settings as a file, of the last version or of the first, which leaves the wait out. HUB_BAD_STATE where they break a rule. */
uint64_t hub_settings_write(const uint8_t *settings, size_t settings_len, uint8_t *out, size_t out_len);
uint64_t hub_settings_write_1(const uint8_t *settings, size_t settings_len, uint8_t *out, size_t out_len);

/* Writes the lent settings where nothing else is set: the realm "hub.bus", no rule, the usual wait. */
uint64_t hub_settings_default(uint8_t *out, size_t out_len);

#ifdef __cplusplus
}
#endif

#endif
