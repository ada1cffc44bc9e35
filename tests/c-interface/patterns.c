/* Every pattern of bytes is a device: on devices of random words each kind of call ends with an answer. A refused one leaves all as it was,
 * and an accepted one changes what it may and nothing else; frames are bridged and routed. Each call is made by its name and, on a copy of
 * all that it is given, by its kind, and the two must agree. What calls are given lies in blocks of its exact size, so that valgrind sees a
 * step beyond.
 *
 *     patterns ROUNDS */
#include <stdbool.h>

#include "guest.h"

enum { CALLS = 40, ROOM = 6 + 600, FRAME = 64, SOME = 8 };

/* All that a call is given. */
struct given {
    struct rocker *device;
    uint8_t *memory, *buffer;
    uint16_t *list;
    uint8_t *frame;
    size_t memory_length, buffer_length, list_length, frame_length;
};

static struct given named, called, before;
static uint64_t seed = 1;
static unsigned long answers[6][10], made[10], table_changes, bridged, routed, back, resets;

static uint64_t below(uint64_t n)
{
    return random_number(&seed) % n;
}

static void *block(size_t length)
{
    void *at = malloc(length ? length : 1);
    CHECK(at != NULL);
    return at;
}

static struct given blocks(size_t memory, size_t buffer, size_t list, size_t frame)
{
    struct given g = {block(sizeof *g.device), block(memory), block(buffer), block(2 * list), block(frame), memory, buffer, list, frame};
    return g;
}

static void release(struct given *g)
{
    free(g->device);
    free(g->memory);
    free(g->buffer);
    free(g->list);
    free(g->frame);
}

static void copy(struct given *to, const struct given *from)
{
    *to->device = *from->device;
    memcpy(to->memory, from->memory, from->memory_length);
    memcpy(to->buffer, from->buffer, from->buffer_length);
    memcpy(to->list, from->list, 2 * from->list_length);
    memcpy(to->frame, from->frame, from->frame_length);
}

static bool same_around(const struct given *one, const struct given *other)
{
    return memcmp(one->memory, other->memory, one->memory_length) == 0 && memcmp(one->buffer, other->buffer, one->buffer_length) == 0
        && memcmp(one->list, other->list, 2 * one->list_length) == 0;
}

static bool same(const struct given *one, const struct given *other)
{
    return memcmp(one->device, other->device, sizeof *one->device) == 0 && same_around(one, other);
}

/* The same but for bits that mean nothing, the upper halves of words 5 to 13: a call that is done may clear them. */
static bool same_meaning(const struct given *one, const struct given *other)
{
    struct rocker a = *one->device, b = *other->device;
    for (unsigned k = 5; k <= 13; k++) {
        a.registers[k] = (uint32_t)a.registers[k];
        b.registers[k] = (uint32_t)b.registers[k];
    }
    return memcmp(&a, &b, sizeof a) == 0 && same_around(one, other);
}

/* ---- What devices, guest memory and frames hold */

static void random_bytes(void *to, size_t length)
{
    uint8_t *at = to;
    for (size_t i = 0; i < length; i++)
        at[i] = (uint8_t)random_number(&seed);
}

/* A device that was made, with some commands carried out: its tables are in order. One in three bridges, the others route. */
static void used_device(struct rocker *d)
{
    static struct guest used[3];
    if (used[0].head == 0) {
        with_bridge(&used[0]);
        with_routes(&used[1], IPV4);
        with_routes(&used[2], IPV6);
    }
    *d = used[below(3)].device;
}

static uint32_t word_of(const uint8_t *bytes, unsigned width)
{
    uint32_t word = 0;
    for (unsigned i = 0; i < width; i++)
        word |= (uint32_t)bytes[i] << 8 * i;
    return word;
}

static uint32_t random_id(void)
{
    static const uint32_t types[6] = {0, 2, 3, 4, 0, 5};
    return types[below(6)] << 28 | VLAN << 16 | (uint32_t)below(70);
}

/* A row whose numbers are those of flows, in any combination. */
static void random_flow(uint32_t row[22])
{
    static const uint16_t tables[6] = {0, 10, 20, 30, 50, 60}, types[3] = {IPV4, IPV6, 0};
    uint8_t mac[6], address[16];
    unsigned ethertype = types[below(3)];
    for (unsigned i = 0; i < 22; i++)
        row[i] = (uint32_t)below(4);
    if (below(2))
        memcpy(mac, router, 6);
    else
        station(mac, (unsigned)below(300));
    row[2] = word_of(mac, 4);
    row[3] = word_of(mac + 4, 2);
    row[9] = random_id();
    row[10] = tables[below(6)];
    row[11] = tables[below(6)];
    row[12] = below(2) ? VLAN : row[12];
    row[16] = ethertype;
    row[17] = (uint32_t)below(140);
    network(address, ethertype, (unsigned)below(300));
    for (unsigned i = 0; i < 2; i++) { /* a word of 64 bits begins with the address's first bytes, its lower half stands first */
        uint8_t half[8];
        for (unsigned k = 0; k < 8; k++)
            half[k] = address[8 * i + 7 - k];
        row[18 + 2 * i] = word_of(half, 4);
        row[19 + 2 * i] = word_of(half + 4, 4);
    }
}

/* The same of groups; the MACs are not 0. */
static void random_group(uint32_t head[8], uint16_t members[62])
{
    head[0] = random_id();
    head[2] = (uint32_t)below(300);
    head[3] = below(4) ? VLAN : (uint32_t)below(4);
    for (unsigned i = 4; i < 8; i++)
        head[i] |= 1;
    for (unsigned i = 0; i < 62; i++)
        members[i] = (uint16_t)below(70);
}

/* The flows' places in the order of their tables, and where each table begins. In one table any flow is first. */
static void order_by_table(struct rocker *d)
{
    static const uint16_t tables[6] = {0, 10, 20, 30, 50, 60};
    unsigned slot = 0;
    for (unsigned t = 0; t < 6; t++) {
        if (1 <= t && t <= 4)
            d->registers[15 + t] = slot;
        for (unsigned k = 0; k < ROCKER_FLOWS; k++)
            if (d->flows[k][10] == tables[t])
                d->order[slot++] = (uint8_t)k;
    }
}

static void random_device(struct rocker *d, uint64_t way)
{
    random_bytes(d, sizeof *d);
    if (way == 1)
        memset(d, 0xff, sizeof *d);
    if (way == 2)
        memset(d, 0, sizeof *d);
    if (way == 3 || way == 4)
        used_device(d);
    if (way == 4) /* some of its words are others */
        for (unsigned k = 0; k < 20; k++) {
            uint32_t word = (uint32_t)random_number(&seed) >> below(32);
            memcpy((uint8_t *)d + 4 * below(sizeof *d / 4), &word, 4);
        }
    if (way >= 5) { /* tables with what flows and groups have, in any order */
        for (unsigned k = 0; k < ROCKER_FLOWS; k++)
            random_flow(d->flows[k]);
        for (unsigned k = 0; k < ROCKER_GROUPS; k++)
            random_group(d->heads[k], d->members[k]);
        if (below(4))
            order_by_table(d);
        else /* any bytes, and tables that begin anywhere */
            for (unsigned k = 16; k < 20; k++)
                d->registers[k] = below(300);
    }
    if (way >= 3) { /* a ring that stands in memory, as it may be or nearly so; bits that no 32-bit number has */
        uint64_t *r = d->registers;
        r[1] = r[2] = UINT64_MAX >> below(3);
        r[4] = below(8) ? 32 * below(4) : random_number(&seed);
        r[5] = below(4) ? 62 : below(100);
        r[10] = below(4) ? 8 : below(20);
        r[11] = below(9);
        r[12] = below(9);
        r[13] = below(8) ? below(10) : 65535 + below(3);
        if (way == 5) {
            r[14] = below(400);
            r[15] = below(200);
        }
        if (below(4) == 0)
            r[5 + below(15)] |= random_number(&seed) << 32;
    }
}

/* Eight commands, each at its place, and descriptors that mostly point to one of them. */
static void random_memory(struct given *g)
{
    static struct payload some[SOME];
    if (some[0].length == 0) {
        some[0] = ingress(FLOW_ADD, 1000);
        some[1] = ingress(FLOW_MOD, 1);
        some[2] = flow_del(2);
        some[3] = interface(GROUP_ADD, 1);
        some[4] = termination(FLOW_ADD, 1001, IPV4);
        some[5] = route(FLOW_MOD, 200, IPV6, 300, 1);
        some[6] = neighbour(GROUP_MOD, 2);
        some[7] = flood(GROUP_MOD, 1, 20);
    }
    random_bytes(g->memory, g->memory_length);
    for (unsigned k = 0; k < 16; k++) {
        const struct payload *p = &some[k % SOME];
        uint64_t place = 512 + 168 * (k % SOME);
        CHECK(p->length <= 168 || k % SOME == SOME - 1);
        if (place + p->length <= g->memory_length) {
            memcpy(g->memory + place, p->bytes, p->length);
            describe(g->memory + 32 * k, place, p->length);
        }
    }
    for (unsigned k = 0; k < below(4) && g->memory_length; k++)
        g->memory[below(g->memory_length)] = (uint8_t)random_number(&seed);
}

static void random_frame(struct given *g)
{
    uint8_t mac[6] = {0xff, 0xff, 0xff, 0xff, 0xff, 0xff};
    random_bytes(g->frame, g->frame_length);
    if (g->frame_length != FRAME || below(4) == 0)
        return;
    if (below(2)) { /* the neighbour of network 62 is behind port 1 */
        frame_by_router(g->frame, below(2) ? IPV4 : IPV6, below(2) ? 62 : (unsigned)below(300));
    } else {
        if (below(2))
            station(mac, (unsigned)below(300));
        frame_to(g->frame, mac);
    }
}

/* ---- The calls */

static bool is_zero(const struct rocker_outcome *o)
{
    return !o->value && !o->raised && !o->completed && !o->bytes && !o->outputs && !o->reset;
}

/* What an accepted call may have changed, by its kind. */
static void check_changes(uint64_t kind, const struct rocker_outcome *o)
{
    bool registers = memcmp(before.device->registers, named.device->registers, sizeof named.device->registers) != 0;
    bool tables = memcmp(before.device->flows, named.device->flows, sizeof *named.device - sizeof named.device->registers) != 0;
    size_t at = 0, end = named.memory_length, written = ROCKER_OUTPUT * o->outputs;
    while (at < end && before.memory[at] == named.memory[at])
        at++;
    while (end > at && before.memory[end - 1] == named.memory[end - 1])
        end--;
    CHECK(kind == ROCKER_PROCESS ? end - at <= 2 : end == at);
    table_changes += tables;
    CHECK(!tables || (kind == ROCKER_PROCESS && o->completed == 0x8000));
    CHECK(kind == ROCKER_PROCESS || kind == ROCKER_WRITE || kind == ROCKER_LINK || !registers);
    CHECK(kind == ROCKER_PROCESS ? o->bytes >= 6 && o->completed >= 0x8000 : kind == ROCKER_HEADER ? o->bytes == 6 : o->bytes == 0);
    CHECK(o->bytes <= named.buffer_length && written <= named.list_length && o->outputs <= 62);
    CHECK(memcmp(before.buffer + o->bytes, named.buffer + o->bytes, named.buffer_length - o->bytes) == 0);
    CHECK(memcmp(before.list + written, named.list + written, 2 * (named.list_length - written)) == 0);
}

/* By the port that a frame came in at it leaves only if it is routed. No device here routes to MACs of 0. */
static void check_outputs(uint64_t ingress, uint64_t outputs)
{
    static const uint16_t none[6];
    for (uint64_t k = 0; k < outputs; k++) {
        const uint16_t *numbers = named.list + ROCKER_OUTPUT * k;
        bool is_routed = memcmp(numbers + ROCKER_SOURCE, none, sizeof none) != 0;
        CHECK(numbers[ROCKER_POP_VLAN] <= 1 && (is_routed || numbers[ROCKER_PORT] != ingress));
        bridged += !is_routed;
        routed += is_routed;
        back += numbers[ROCKER_PORT] == ingress;
    }
}

/* Told exactly at an accepted write of CONTROL with bit 0 set. Then nothing is live, and no register but ports, switch ID and links is
 * other than 0. */
static void check_reset(bool is_reset, uint64_t told)
{
    const uint64_t *r = named.device->registers;
    CHECK(told == is_reset);
    resets += told;
    for (unsigned k = 2; told && k < 20; k++)
        CHECK(k == 5 ? (uint32_t)r[k] == (uint32_t)before.device->registers[k] : r[k] == 0);
    CHECK(!told || (r[0] == before.device->registers[0] && r[1] == before.device->registers[1]));
}

static uint32_t by_name(uint64_t kind, uint64_t a, uint64_t b, uint64_t c, struct rocker_outcome *o)
{
    struct given *g = &named;
    memset(o, 0, sizeof *o);
    switch (kind) {
    case ROCKER_READ: o->value = 9; return rocker_read(g->device, a, b, &o->value);
    case ROCKER_WRITE: memset(o, 9, sizeof *o); return rocker_write(g->device, a, b, c, o);
    case ROCKER_LINK: return rocker_link(g->device, a, b);
    case ROCKER_PROCESS:
        memset(o, 9, sizeof *o);
        return rocker_process(g->device, g->memory, g->memory_length, g->buffer, g->buffer_length, o);
    case ROCKER_FRAME: o->outputs = 9; return rocker_frame(g->device, a, g->frame, g->frame_length, g->list, g->list_length, &o->outputs);
    default: memset(o, 9, sizeof *o); return rocker_header(g->device, g->buffer, g->buffer_length, o);
    }
}

static void call(uint64_t kind, uint64_t a, uint64_t b, uint64_t c)
{
    struct given *g = &called;
    struct rocker_outcome o, p;
    uint32_t answer;
    copy(&before, &named);
    copy(&called, &named);
    answer = by_name(kind, a, b, c, &o);
    memset(&p, 9, sizeof p);
    CHECK(rocker_call(g->device, kind, a, b, c, g->memory, g->memory_length, g->frame, g->frame_length, g->buffer, g->buffer_length, g->list,
                      g->list_length, &p) == answer);
    CHECK(memcmp(&o, &p, sizeof o) == 0 && same_meaning(&named, &called));
    CHECK(answer <= 9 && memcmp(named.frame, before.frame, named.frame_length) == 0);
    if (answer == 0) {
        check_changes(kind, &o);
        check_outputs(a, o.outputs);
        check_reset(kind == ROCKER_WRITE && a == CONTROL && c % 2 == 1, o.reset);
    } else
        CHECK(is_zero(&o) && same(&named, &before) && same(&called, &before));
    answers[kind][answer]++;
}

static const uint16_t offsets[] = {0x0, 0x4, 0x8, 0x10, 0x14, 0x18, 0x1c, 0x300, 0x304, 0x308, 0x310, 0x314, 0x318, 0x31c, 0x320, 0x324,
                                   0x1000, 0x1004, 0x1008, 0x100c, 0x1010, 0x1014, 0x1018, 0x101c, 0x1020};

static void register_call(uint64_t kind)
{
    uint64_t offset = below(8) ? offsets[below(sizeof offsets / sizeof *offsets)] : random_number(&seed) >> below(64);
    uint64_t width = below(8) ? (uint64_t)4 << below(2) : below(20), value = random_number(&seed) >> below(64);
    call(kind, offset, width, value);
}

static void a_call(void)
{
    uint64_t kind = below(8);
    switch (kind) {
    case ROCKER_READ:
    case ROCKER_WRITE: register_call(kind); break;
    case ROCKER_LINK: call(kind, below(4) ? below(65) : random_number(&seed), below(4) ? below(2) : random_number(&seed), 0); break;
    case ROCKER_FRAME: call(kind, below(4) ? (below(2) ? 1 : below(65)) : random_number(&seed), 0, 0); break;
    case ROCKER_HEADER: call(kind, 0, 0, 0); break;
    default: call(ROCKER_PROCESS, 0, 0, 0);
    }
}

/* A device made of any other is the one that is made of zeros; a refused one stays. */
static void fresh(void)
{
    static struct rocker zeros;
    uint64_t ports = below(4) ? below(64) : random_number(&seed);
    uint32_t answer;
    memset(&zeros, 0, sizeof zeros);
    copy(&before, &named);
    answer = rocker_fresh(named.device, ports, 7);
    CHECK(rocker_fresh(&zeros, ports, 7) == answer && (answer == 0) == (ports >= 1 && ports <= 62) && (answer == 0 || answer == 7));
    CHECK(memcmp(named.device, answer ? before.device : &zeros, sizeof zeros) == 0);
    made[answer]++;
}

static void a_round(unsigned long n)
{
    size_t memory = below(4) ? 2304 : below(700), room = below(4) ? ROOM : below(100);
    size_t list = below(4) ? ROCKER_LIST : below(700), frame = below(4) ? FRAME : below(70);
    named = blocks(memory, room, list, frame);
    called = blocks(memory, room, list, frame);
    before = blocks(memory, room, list, frame);
    random_device(named.device, n % 7);
    random_memory(&named);
    random_frame(&named);
    random_bytes(named.buffer, room);
    random_bytes(named.list, 2 * list);
    for (unsigned k = 0; k < CALLS; k++)
        a_call();
    fresh();
    release(&named);
    release(&called);
    release(&before);
}

int main(int count, char **words)
{
    /* the answers that a kind may give */
    static const char *const may[6] = {"01", "012", "027", "03456", "0789", "06"};
    static const char *const names[6] = {"read", "write", "link", "process", "frame", "header"};
    unsigned long rounds, all = 0;
    CHECK(count == 2);
    rounds = strtoul(words[1], NULL, 10);
    for (unsigned long n = 0; n < rounds; n++)
        a_round(n);
    for (unsigned kind = 0; kind < 6; kind++) {
        printf("%-8s", names[kind]);
        for (unsigned answer = 0; answer < 10; answer++) {
            all += answers[kind][answer];
            if (answers[kind][answer])
                printf("  %u: %lu", answer, answers[kind][answer]);
            /* each that may come did come, and no other */
            CHECK((answers[kind][answer] > 0) == (strchr(may[kind], '0' + (int)answer) != NULL));
        }
        printf("\n");
    }
    printf("fresh     0: %lu  7: %lu\n", made[0], made[7]);
    CHECK(made[0] > 0 && made[7] > 0);
    printf("devices of any bytes: %lu, calls on them: %lu, tables changed: %lu\n", rounds, all, table_changes);
    printf("outputs: %lu bridged, %lu routed, %lu of them by the port that the frame came in at\n", bridged, routed, back);
    printf("writes that reset the device, and told it: %lu\n", resets);
    CHECK(resets > 0 && table_changes > 0 && bridged > 0 && routed > back && back > 0);
    return 0;
}
