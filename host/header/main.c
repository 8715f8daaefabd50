/* Every call of relay.h once, so that the archives have it under its name, and the sizes that the library says are those of the header. */
#include "../relay.h"

#include <stdio.h>
#include <string.h>

static int bad;

static void is(const char *what, uint64_t said, uint64_t must) {
    if (said != must) {
        printf("header: %s is %llu and not %llu\n", what, (unsigned long long)said, (unsigned long long)must);
        bad = 1;
    }
}

static relay_table t;

static void sizes(void) {
    const size_t of[] = {sizeof(relay_table), sizeof(relay_record), sizeof(relay_key), sizeof(relay_view),
                         sizeof(relay_arrival), sizeof(relay_prepared), sizeof(relay_handles), sizeof(relay_names)};
    for (uint32_t i = 0; i < 8; i++) is("a size", relay_size(i), of[i]);
    is("the size of nothing", relay_size(8), 0);
}

static void calls(void) {
    relay_record r = {.handle = 5, .prefix = 9, .on = 1, .reliable = 1, .number = 0};
    relay_key k = {.address = 7, .on = 1};
    relay_arrival arrival;
    relay_view view;
    relay_prepared sent;
    relay_handles h = {1, {6}};
    relay_names n = {1, {0}};
    uint32_t lent[64];

    memset(&t, 0x5a, sizeof t);
    is("a malformed table", relay_well_formed(&t), 0);
    is("a call on it", relay_reset_prefix_offset(&t), 1);
    is("its prefix", relay_last_accepted_prefix(&t), 1ull << 32);
    is("a table of flag 2", relay_new(&t, 2), 2);
    is("a new table", relay_new(&t, 1), 0);
    is("well formed", relay_well_formed(&t), 1);
    is("a channel", relay_channel(&t, &k, &view), 0);
    is("its address", view.address, 7);
    is("a delivery", relay_accept(&t, 100, 7, &r, 1, &arrival), 0);
    is("its count", arrival.count, 1);
    is("the expected number", arrival.view.expected, 1);
    is("held", relay_holds(&t, 5), 1);
    is("a bundle", relay_next_bundle(&t, &k, lent, 64), 2);
    is("its handle", lent[0], 5);
    is("an ack written", relay_acks_written(&t, &k, &n), 0);
    is("written again", relay_acks_written(&t, &k, &n), 2);
    is("a send", relay_prepare(&t, 100, &k, 1, &h, &sent), 0);
    is("its number", sent.first, 1);
    is("resends", relay_take_resends(&t, 200, 50, 1000, lent, 64), 1);
    is("the handle sent again", lent[1], 6);
    is("forwarded out", relay_accept_out(&t, 200, 7, &r, &view), 0);
    is("the prefix", relay_last_accepted_prefix(&t), 9);
    is("transferred", relay_transfer_prefix_offset(&t), 0);
    is("the offset", t.offset, 9);
}

static void numbers(void) {
    relay_seq_alloc a = {0x0ffffffe};
    is("compare", relay_seq_compare(0, 1), 2);
    is("add", relay_seq_add(0x0fffffff, 1), 0);
    is("sub", relay_seq_sub(0, 1), 0x0fffffff);
    is("distance", relay_seq_distance(1, 0), 1);
    is("no number", relay_seq_add(0x10000000, 1), RELAY_ILLEGAL);
    is("a prefix sum", relay_prefix_sum(1, 0, 0), 0x42021);
    is("alloc", relay_alloc(&a, 4), 0x0ffffffe);
    is("what it leaves", a.next, 2);
    relay_observe(&a, 5);
    is("observed", a.next, 6);
}

int main(void) {
    sizes();
    calls();
    numbers();
    puts(bad ? "header: FAILED" : "header: every call answers as relay.h says");
    return bad;
}
