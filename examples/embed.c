/* A host in C: three connections, one of which speaks MessagePack, a registration, calls and their answers. It prints each step's outcome
 * and what is to be sent.
 *
 *     cc -I include examples/embed.c target/staticlib/libhub_ffi.a -o embed && ./embed
 */
#include <inttypes.h>
#include <stdio.h>
#include <string.h>

#include "hub.h"

/* The hub's state, empty at first, and room for what a step sends: nothing is published here. */
static uint8_t state[HUB_STATE_LEN];
static uint8_t out[HUB_OUT_LEN_NO_PUBLISH];

/* Prints a message: one of JSON, which begins with its bracket, as it is, and one of MessagePack, which never does, in hex. */
static void print_message(const uint8_t *message, size_t length) {
    if (message[0] == '[') {
        printf("%.*s\n", (int)length, (const char *)message);
        return;
    }
    for (size_t k = 0; k < length; k++) {
        printf("%02x", message[k]);
    }
    printf("\n");
}

/* Prints the outcome, and the messages with their slots. */
static void print_outcome(uint64_t answer) {
    if (HUB_REFUSAL(answer) != HUB_DONE) {
        printf("  refusal %u\n", HUB_REFUSAL(answer));
        return;
    }
    printf("  done, %zu bytes\n", HUB_COUNT(answer));
    size_t messages = (size_t)out[0] << 8 | out[1];
    const uint8_t *entry = out + HUB_OUT_COUNT_LEN;
    const uint8_t *body = entry + HUB_OUT_ENTRY_LEN * messages;
    for (size_t k = 0; k < messages; k++, entry += HUB_OUT_ENTRY_LEN) {
        size_t length = (size_t)entry[1] << 8 | entry[2];
        printf("  to slot %u: ", entry[0]);
        print_message(body, length);
        body += length;
    }
}

static void attach(uint64_t slot) {
    printf("slot %" PRIu64 " is attached\n", slot);
    print_outcome(hub_attach(slot, state, sizeof state, out, sizeof out));
}

static void attach_msgpack(uint64_t slot) {
    printf("slot %" PRIu64 " is attached for MessagePack\n", slot);
    print_outcome(hub_attach_msgpack(slot, state, sizeof state, out, sizeof out));
}

static void detach(uint64_t slot) {
    printf("slot %" PRIu64 " is detached\n", slot);
    print_outcome(hub_detach(slot, state, sizeof state, out, sizeof out));
}

/* A real message of MessagePack may hold zero bytes, so its length comes with it; these hold none. */
static void sends(uint64_t slot, uint64_t number, const char *text) {
    const uint8_t *message = (const uint8_t *)text;
    size_t length = strlen(text);
    printf("slot %" PRIu64 " sends ", slot);
    print_message(message, length);
    print_outcome(hub_message(slot, number, message, length, state, sizeof state, out, sizeof out));
}

int main(void) {
    attach(0);
    attach(1);
    attach(1); /* it is attached already */
    /* A real host draws these numbers at random. */
    sends(0, 1001, "[1,\"hub.bus\",{}]");
    sends(1, 1002, "[1,\"hub.bus\",{}]");
    sends(1, 1003, "[64,1,{\"match\":\"prefix\"},\"hub.donor\"]");
    sends(0, 1004, "[48,1,{},\"hub.donor.defer\",[\"D17\"]]");
    sends(1, 1005, "[70,1,{},[\"held\"]]");
    sends(0, 1006, "[48,2,{},\"hub.donor.defer\",[\"D18\"]]");
    /* The same procedure, called in MessagePack: the invocation is JSON, and the result is MessagePack again. */
    attach_msgpack(2);
    sends(2, 1007, "\x93\x01\xa7hub.bus\x80");
    sends(2, 1008, "\x95\x30\x01\x80\xafhub.donor.defer\x91\xa3" "D19");
    sends(1, 1009, "[70,3,{},[\"held\"]]");
    detach(1); /* the call that it served is canceled */
    return 0;
}
