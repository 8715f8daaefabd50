/* relay.h: the calls of the proved relay for a host in C, and what crosses. Link libdoor.a for the relay_ calls over a table and libseq_c.a
 * for the number functions and the number source (tools/archive builds both). All structs are integers only: any bytes are a value, and a
 * table whose bytes are not well formed is refused by 1. A pointer that a call takes must not be null and points to what is named, alive
 * and aligned for the call; two pointers of one call do not overlap unless both are const.
 *
 * A refusal's number: 1 the table is malformed, 2 a field, a key or a list is out of range, 3 the time is below the table's latest,
 * 4 no place for one more channel, 5 the record's version is old, 6 a cumulative ack off-channel, 7 a reliable record gives a last
 * reliable number, 8 that number is not the one before the expected, 9 such a number off-channel, 10 a fragment is beyond its group,
 * 11 the state would be over a limit, 12 the lent list is too short, 13 the channel is absent.
 */
#ifndef RELAY_H
#define RELAY_H

#include <stddef.h>
#include <stdint.h>

#ifdef __cplusplus
extern "C" {
#define RELAY_ASSERT static_assert
#else
#define RELAY_ASSERT _Static_assert
#endif

#define RELAY_REFUSED 0x80000000u /* the mark of a refusal where a call's answer is a number */
#define RELAY_ILLEGAL 0x80000002u /* what the number functions answer for a number above 0x0FFFFFFF */

/* ---- what crosses */

/* A received packet, or one that is forwarded out. Flags (on, indexed, reliable, ranged, hascumulative, haslast) are 0 or 1; a field that
 * is not flagged is ignored. */
typedef struct relay_record {
    uint32_t handle, prefix;
    uint32_t on;
    uint32_t indexed, index, version;
    uint32_t reliable, number;
    uint32_t ranged, first, last;
    uint32_t hascumulative, cumulative;
    uint32_t haslast, lastreliable;
    uint32_t ackcount, acks[8];
} relay_record;

typedef struct relay_key {
    uint32_t address, on, indexed, index;
} relay_key;

/* A channel as calls answer it; index and version are 0 where it has none. */
typedef struct relay_view {
    uint32_t on, address, index, version, expected;
} relay_view;

/* A delivery's answer: the count of records not refused, and the last one's channel. */
typedef struct relay_arrival {
    uint32_t count;
    relay_view view;
} relay_arrival;

/* A send's answer; where allocated is 0 no number was, and first is 0. */
typedef struct relay_prepared {
    uint32_t allocated, first, on, expected, index, version, offset;
} relay_prepared;

typedef struct relay_handles {
    uint32_t count, handles[16];
} relay_handles;

typedef struct relay_names {
    uint32_t count, numbers[64];
} relay_names;

/* The source of sequence numbers that a host may hold by itself. */
typedef struct relay_seq_alloc {
    uint32_t next;
} relay_seq_alloc;

/* ---- the table: the whole state. relay_new makes one; a host may copy, store and load it as bytes. */

typedef struct relay_out_entry {
    uint64_t time, sent;
    uint32_t number, held, handle;
} relay_out_entry;

typedef struct relay_packet {
    uint32_t number, handle, ranged, first, last;
} relay_packet;

typedef struct relay_out_list {
    uint32_t len;
    relay_out_entry entries[32];
} relay_out_list;

typedef struct relay_ack_queue {
    uint32_t len, numbers[64];
} relay_ack_queue;

typedef struct relay_fragments {
    uint64_t updated;
    uint32_t first, len, count, marks[32], handles[32];
} relay_fragments;

typedef struct relay_groups {
    uint32_t len;
    relay_fragments groups[4];
} relay_groups;

typedef struct relay_bundles {
    uint32_t len, total, lengths[16], handles[64];
} relay_bundles;

typedef struct relay_waiting {
    uint32_t len;
    relay_packet packets[32];
} relay_waiting;

typedef struct relay_off_channel {
    uint32_t address;
    relay_out_list out;
    relay_ack_queue acks;
    relay_groups groups;
    relay_bundles bundles;
} relay_off_channel;

typedef struct relay_on_channel {
    uint32_t address, index, version, expected, source;
    relay_out_list out;
    relay_ack_queue acks;
    relay_groups groups;
    relay_bundles bundles;
    relay_waiting buffer, queue;
} relay_on_channel;

typedef struct relay_table {
    uint64_t latest;
    uint32_t forwarding, prefix, offset, source, offcount, oncount;
    relay_off_channel offs[4];
    relay_on_channel ons[8];
} relay_table;

RELAY_ASSERT(sizeof(relay_table) == 43584, "relay_table");
RELAY_ASSERT(offsetof(relay_table, offs) == 32, "relay_table.offs");
RELAY_ASSERT(offsetof(relay_table, ons) == 11072, "relay_table.ons");
RELAY_ASSERT(sizeof(relay_off_channel) == 2760, "relay_off_channel");
RELAY_ASSERT(offsetof(relay_off_channel, acks) == 1040, "relay_off_channel.acks");
RELAY_ASSERT(offsetof(relay_off_channel, groups) == 1304, "relay_off_channel.groups");
RELAY_ASSERT(offsetof(relay_off_channel, bundles) == 2432, "relay_off_channel.bundles");
RELAY_ASSERT(sizeof(relay_on_channel) == 4064, "relay_on_channel");
RELAY_ASSERT(offsetof(relay_on_channel, buffer) == 2776, "relay_on_channel.buffer");
RELAY_ASSERT(offsetof(relay_on_channel, queue) == 3420, "relay_on_channel.queue");
RELAY_ASSERT(sizeof(relay_out_entry) == 32, "relay_out_entry");
RELAY_ASSERT(sizeof(relay_fragments) == 280, "relay_fragments");
RELAY_ASSERT(sizeof(relay_packet) == 20, "relay_packet");
RELAY_ASSERT(sizeof(relay_record) == 96, "relay_record");
RELAY_ASSERT(sizeof(relay_key) == 16, "relay_key");
RELAY_ASSERT(sizeof(relay_view) == 20, "relay_view");
RELAY_ASSERT(sizeof(relay_arrival) == 24, "relay_arrival");
RELAY_ASSERT(sizeof(relay_prepared) == 28, "relay_prepared");
RELAY_ASSERT(sizeof(relay_handles) == 68, "relay_handles");
RELAY_ASSERT(sizeof(relay_names) == 260, "relay_names");

/* ---- calls over a table: 0 or the refusal, if nothing else is said */

/* A new table, forwarding or not, in the place of whatever was there; 2 for a flag other than 0 or 1, and the memory is as it was. */
uint32_t relay_new(relay_table *t, uint32_t forwarding);
/* 1 where the table is well formed, else 0. */
uint32_t relay_well_formed(const relay_table *t);
/* 1 to 8 records of one delivery, in order; the last record's refusal. */
uint32_t relay_accept(relay_table *t, uint64_t time, uint32_t address, const relay_record *records, size_t n, relay_arrival *answer);
/* A packet that the host forwards out. */
uint32_t relay_accept_out(relay_table *t, uint64_t time, uint32_t address, const relay_record *r, relay_view *answer);
/* The channel of a key, found or made. */
uint32_t relay_channel(relay_table *t, const relay_key *k, relay_view *answer);
/* 0 for no bundle, else the bundle's length and one more, its handles written to lent; RELAY_REFUSED + the number for a refusal. */
uint32_t relay_next_bundle(relay_table *t, const relay_key *k, uint32_t *lent, size_t n);
/* The state half of a send. */
uint32_t relay_prepare(relay_table *t, uint64_t time, const relay_key *k, uint32_t reliable, const relay_handles *h, relay_prepared *answer);
/* Acks that the host has written to a packet leave the channel's queue. */
uint32_t relay_acks_written(relay_table *t, const relay_key *k, const relay_names *n);
/* The count of rows written to lent, an address and a handle each; RELAY_REFUSED + the number for a refusal. Times in milliseconds. */
uint32_t relay_take_resends(relay_table *t, uint64_t time, uint64_t timeout, uint64_t give_up, uint32_t *lent, size_t n);
/* 1 where the handle is held, else 0; RELAY_REFUSED + 1 for a malformed table. */
uint32_t relay_holds(const relay_table *t, uint32_t handle);
/* The prefix; 2^32 for a malformed table. */
uint64_t relay_last_accepted_prefix(const relay_table *t);
uint32_t relay_reset_prefix_offset(relay_table *t);
uint32_t relay_transfer_prefix_offset(relay_table *t);
/* The sizes in bytes of table, record, key, view, arrival, prepared, handles, names, by numbers 0 to 7; 0 for another number. */
uint32_t relay_size(uint32_t what);

/* ---- numbers: any u32; RELAY_ILLEGAL where a sequence number is not legal */

/* 0 Equal, 1 Greater, 2 Less. */
uint32_t relay_seq_compare(uint32_t a, uint32_t b);
uint32_t relay_seq_add(uint32_t a, uint32_t n);
uint32_t relay_seq_sub(uint32_t a, uint32_t n);
uint32_t relay_seq_distance(uint32_t a, uint32_t b);
uint32_t relay_prefix_sum(uint32_t offset, uint32_t p0, uint32_t p1);
/* Answers the next number of the source and moves it on by the count. */
uint32_t relay_alloc(relay_seq_alloc *a, uint32_t count);
/* Moves the source to the number after num where that compares Greater than the next. */
void relay_observe(relay_seq_alloc *a, uint32_t num);

#ifdef __cplusplus
}
#endif
#endif
