/* Seeded random calls of the library, and sums of what they answer and leave. Built twice, over the archive of each processor, it must
 * print the same: host/both/run does that. The structs are those of host/src/library.rs; only their fields are summed, not the padding. */

int printf(const char *, ...);

/* Of 64-bit Linux; the kit's compiler for x86-64 has no headers. */
typedef unsigned int u32;
typedef unsigned long u64, size_t;

typedef struct { u32 number, handle, ranged, first, last; } Packet;
typedef struct { u64 time, sent; u32 number, held, handle; } OutEntry;
typedef struct { u32 len; OutEntry entries[32]; } OutList;
typedef struct { u32 len, numbers[64]; } AckQueue;
typedef struct { u64 updated; u32 first, len, count, marks[32], handles[32]; } Fragments;
typedef struct { u32 len; Fragments groups[4]; } Groups;
typedef struct { u32 len, total, lengths[16], handles[64]; } Bundles;
typedef struct { u32 len; Packet packets[32]; } Waiting;
typedef struct { u32 address; OutList out; AckQueue acks; Groups groups; Bundles bundles; } OffChannel;
typedef struct {
    u32 address, index, version, expected, source;
    OutList out; AckQueue acks; Groups groups; Bundles bundles; Waiting buffer, queue;
} OnChannel;
typedef struct {
    u64 latest;
    u32 forwarding, prefix, offset, source, offcount, oncount;
    OffChannel offs[4];
    OnChannel ons[8];
} Table;

typedef struct {
    u32 handle, prefix, on, indexed, index, version, reliable, number, ranged, first, last, hascumulative, cumulative, haslast,
        lastreliable, ackcount, acks[8];
} Record;
typedef struct { u32 address, on, indexed, index; } Key;
typedef struct { u32 on, address, index, version, expected; } View;
typedef struct { u32 count; View view; } Arrival;
typedef struct { u32 allocated, first, on, expected, index, version, offset; } Prepared;
typedef struct { u32 count, handles[16]; } Handles;
typedef struct { u32 count, numbers[64]; } Names;

u32 relay_new(Table *, u32 forwarding);
u32 relay_well_formed(const Table *);
u32 relay_accept(Table *, u64 time, u32 address, const Record *, size_t n, Arrival *);
u32 relay_accept_out(Table *, u64 time, u32 address, const Record *, View *);
u32 relay_channel(Table *, const Key *, View *);
u32 relay_next_bundle(Table *, const Key *, u32 *lent, size_t n);
u32 relay_prepare(Table *, u64 time, const Key *, u32 reliable, const Handles *, Prepared *);
u32 relay_acks_written(Table *, const Key *, const Names *);
u32 relay_take_resends(Table *, u64 time, u64 timeout, u64 give_up, u32 *lent, size_t n);
u32 relay_holds(const Table *, u32 handle);
u64 relay_last_accepted_prefix(const Table *);
u32 relay_reset_prefix_offset(Table *);
u32 relay_transfer_prefix_offset(Table *);

/* ---- Sums */

static u64 sum;

static void add(u64 x) { sum = (sum ^ x) * 0x100000001B3u + (sum >> 29); }

static void add_words(const u32 *w, size_t n) { for (size_t i = 0; i < n; i++) add(w[i]); }

static void add_lists(const OutList *o, const AckQueue *a, const Groups *g, const Bundles *b) {
    add(o->len);
    for (int i = 0; i < 32; i++) {
        add(o->entries[i].time);
        add(o->entries[i].sent);
        add_words(&o->entries[i].number, 3);
    }
    add_words(&a->len, 65);
    add(g->len);
    for (int i = 0; i < 4; i++) {
        add(g->groups[i].updated);
        add_words(&g->groups[i].first, 67);
    }
    add_words(&b->len, 82);
}

static void add_table(const Table *t) {
    add(t->latest);
    add_words(&t->forwarding, 6);
    for (int i = 0; i < 4; i++) {
        const OffChannel *c = &t->offs[i];
        add(c->address);
        add_lists(&c->out, &c->acks, &c->groups, &c->bundles);
    }
    for (int i = 0; i < 8; i++) {
        const OnChannel *c = &t->ons[i];
        add_words(&c->address, 5);
        add_lists(&c->out, &c->acks, &c->groups, &c->bundles);
        add_words(&c->buffer.len, 161);
        add_words(&c->queue.len, 161);
    }
}

/* ---- Calls */

static u64 state;

static u32 any(u32 below) { /* SplitMix64 */
    u64 z = state += 0x9E3779B97F4A7C15u;
    z = (z ^ z >> 30) * 0xBF58476D1CE4E5B9u;
    z = (z ^ z >> 27) * 0x94D049BB133111EBu;
    return (u32)((z ^ z >> 31) % below);
}

static int once_in(u32 n) { return any(n) == 0; }

static Table table, kept;
static u64 now;
static u32 codes[16], lent[768];

/* Most numbers lie about what the channel of that address expects, so that packets come in order, out of order, and again. */
static u32 near(u32 address) {
    u32 n = 0;
    for (u32 i = 0; i < table.oncount && i < 8; i++)
        if (table.ons[i].address == address) n = table.ons[i].expected;
    return (n + any(6) - 2) & 0x0FFFFFFF;
}

static Key key(void) {
    Key k = { any(5), any(4) != 0, 0, 0 };
    if (k.on && once_in(4)) { k.indexed = 1; k.index = once_in(20) ? 0 : 1 + any(2); }
    return k;
}

static Record record(u32 address) {
    Record r = { 0 };
    r.handle = any(1000);
    r.prefix = any(1000);
    r.on = any(4) != 0;
    if (r.on && once_in(5)) { r.indexed = 1; r.index = 1 + any(2); r.version = once_in(10) ? any(3) : 1; }
    r.reliable = any(3) != 0;
    r.number = once_in(40) ? any(0xFFFFFFFF) : near(address);
    if (once_in(3)) {
        u32 place = any(4);
        r.ranged = 1;
        r.first = (r.number - place) & 0x0FFFFFFF;
        r.last = (r.first + place + any(3)) & 0x0FFFFFFF;
        if (once_in(30)) r.last = r.first;
    }
    if (once_in(8)) { r.hascumulative = 1; r.cumulative = any(40); }
    if (once_in(12)) { r.haslast = 1; r.lastreliable = (near(address) - 1) & 0x0FFFFFFF; }
    r.ackcount = once_in(3) ? any(4) : 0;
    for (u32 i = 0; i < r.ackcount; i++) r.acks[i] = any(40);
    if (once_in(100)) r.on = 2;
    return r;
}

static void told(u32 code) {
    add(code);
    codes[code < 15 ? code : 15]++;
}

static void call(void) {
    Key k = key();
    u64 time = once_in(60) && now ? now - 1 : now;
    u32 kind = any(100);
    if (once_in(5)) now += any(4000);
    if (kind < 45) {
        Record r[9];
        Arrival a = { 0 };
        u32 address = any(5), n = once_in(50) ? 9 * any(2) : 1 + any(3);
        for (u32 i = 0; i < n; i++) r[i] = record(address);
        told(relay_accept(&table, time, address, r, n, &a));
        add_words(&a.count, 6);
    } else if (kind < 70) {
        u32 n = once_in(20) ? any(3) : 64, got = relay_next_bundle(&table, &k, lent, n);
        told(got >> 31 ? got & 0x7FFFFFFF : 0);
        add(got);
        add_words(lent, 64);
    } else if (kind < 77) {
        Handles h = { any(3), { 0 } };
        Prepared p = { 0 };
        if (once_in(30)) h.count = 10 + any(9);
        for (u32 i = 0; i < 16; i++) h.handles[i] = i < h.count ? any(1000) : 0;
        told(relay_prepare(&table, time, &k, any(2), &h, &p));
        add_words(&p.allocated, 7);
    } else if (kind < 85) {
        Names n = { any(4), { 0 } };
        for (u32 i = 0; i < n.count; i++) n.numbers[i] = near(k.address);
        for (u32 i = 0; i < table.oncount && i < 8 && k.on; i++)
            if (table.ons[i].address == k.address && n.count <= table.ons[i].acks.len)
                for (u32 j = 0; j < n.count; j++) n.numbers[j] = table.ons[i].acks.numbers[j];
        told(relay_acks_written(&table, &k, &n));
    } else if (kind < 90) {
        u32 address = any(5);
        Record r = record(address);
        View v = { 0 };
        told(relay_accept_out(&table, time, address, &r, &v));
        add_words(&v.on, 5);
    } else if (kind < 93) {
        View v = { 0 };
        told(relay_channel(&table, &k, &v));
        add_words(&v.on, 5);
    } else if (kind < 96) {
        u32 got = relay_take_resends(&table, time, any(3000), any(9000), lent, once_in(8) ? any(4) : 768);
        told(got >> 31 ? got & 0x7FFFFFFF : 0);
        add(got);
        add_words(lent, 768);
    } else if (kind < 98) {
        u32 got = relay_holds(&table, any(1000));
        told(got >> 31 ? got & 0x7FFFFFFF : 0);
        add(got);
    } else {
        add(relay_last_accepted_prefix(&table));
        told(once_in(2) ? relay_reset_prefix_offset(&table) : relay_transfer_prefix_offset(&table));
    }
}

/* calls [HISTORIES], 60 if not given. */
int main(int argc, char **argv) {
    const u32 calls = 250;
    u32 histories = 0, malformed = 0;
    for (const char *c = argc == 2 ? argv[1] : "60"; *c; c++) histories = 10 * histories + (u32)(*c - '0');
    for (u32 h = 0; h < histories; h++) {
        state = h;
        now = any(1000);
        relay_new(&table, h & 1);
        for (u32 i = 0; i < calls; i++) {
            if (once_in(50)) { /* one word of the table made wrong, mostly: the call answers 1, and the word stays */
                kept = table;
                ((u32 *)&table)[any(sizeof table / 4)] ^= 1u << any(32);
                malformed += relay_well_formed(&table) == 0;
                call();
                add_table(&table);
                table = kept;
            }
            call();
            add_table(&table);
        }
        if (h % 20 == 19 || h + 1 == histories) printf("%u histories of %u calls: %016lx\n", h + 1, calls, sum);
    }
    for (u32 i = 0; i < 14; i++) printf("answered %2u: %u times\n", i, codes[i]);
    printf("answered otherwise: %u times\n", codes[14] + codes[15]);
    printf("malformed tables: %u\n", malformed);
    return 0;
}
