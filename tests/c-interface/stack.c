/* The stack that calls take. Each call is made in a thread that has ROCKER_STACK bytes, what the thread keeps there for itself among them,
 * with nothing mapped below: a call that needs more ends the test. The stack is painted before, and what is touched of it is printed. */
#define _GNU_SOURCE
#include <pthread.h>
#include <sys/mman.h>

#include "guest.h"

enum { GUARD = 1 << 20 };

static struct guest guest;
static struct rocker_outcome outcome;
static uint8_t frame[64];
static uint16_t list[ROCKER_LIST];

/* One call: its name, the kind that it has in rocker_call, its numbers, and the answer that it must give. */
static struct asked {
    const char *name;
    enum { NOTHING, FRESH, BY_NAME, BY_KIND } how;
    uint64_t kind, a, b, c;
    uint32_t answer;
} asked;

static uint32_t by_name(void)
{
    struct rocker *d = &guest.device;
    switch (asked.kind) {
    case ROCKER_READ: return rocker_read(d, asked.a, asked.b, &outcome.value);
    case ROCKER_WRITE: return rocker_write(d, asked.a, asked.b, asked.c, &outcome);
    case ROCKER_LINK: return rocker_link(d, asked.a, asked.b);
    case ROCKER_PROCESS: return rocker_process(d, guest.memory, sizeof guest.memory, guest.buffer, sizeof guest.buffer, &outcome);
    case ROCKER_FRAME: return rocker_frame(d, asked.a, frame, sizeof frame, list, ROCKER_LIST, &outcome.outputs);
    default: return rocker_header(d, guest.buffer, sizeof guest.buffer, &outcome);
    }
}

static void *make_call(void *answer)
{
    uint32_t *got = answer;
    switch (asked.how) {
    case NOTHING: *got = 0; break;
    case FRESH: *got = rocker_fresh(&guest.device, asked.a, 1); break;
    case BY_NAME: *got = by_name(); break;
    case BY_KIND:
        *got = rocker_call(&guest.device, asked.kind, asked.a, asked.b, asked.c, guest.memory, sizeof guest.memory, frame, sizeof frame,
                           guest.buffer, sizeof guest.buffer, list, ROCKER_LIST, &outcome);
    }
    return NULL;
}

/* The bytes of the stack that the call touched, from its top down to the lowest one. */
static size_t touched(int paint)
{
    uint32_t answer = UINT32_MAX;
    size_t untouched = 0;
    pthread_attr_t attributes;
    pthread_t thread;
    uint8_t *mapped = mmap(NULL, GUARD + ROCKER_STACK, PROT_NONE, MAP_PRIVATE | MAP_ANONYMOUS, -1, 0), *stack = mapped + GUARD;
    CHECK(mapped != MAP_FAILED && mprotect(stack, ROCKER_STACK, PROT_READ | PROT_WRITE) == 0);
    memset(stack, paint, ROCKER_STACK);
    CHECK(pthread_attr_init(&attributes) == 0 && pthread_attr_setstack(&attributes, stack, ROCKER_STACK) == 0);
    CHECK(pthread_create(&thread, &attributes, make_call, &answer) == 0 && pthread_join(thread, NULL) == 0);
    pthread_attr_destroy(&attributes);
    CHECK(answer == asked.answer);
    while (untouched < ROCKER_STACK && stack[untouched] == (uint8_t)paint)
        untouched++;
    CHECK(munmap(mapped, GUARD + ROCKER_STACK) == 0);
    return ROCKER_STACK - untouched;
}

/* The same call on the same guest twice, on two paints: a byte that is written as it was painted does not show. */
static size_t measure(struct asked call)
{
    static struct guest before;
    size_t one, other;
    asked = call;
    printf("%-42s", call.name);
    fflush(stdout);
    before = guest;
    one = touched(0xa5);
    guest = before;
    other = touched(0x5a);
    one = one > other ? one : other;
    printf("%7zu\n", one);
    return one;
}

static size_t deepest;

static void call(struct asked call)
{
    size_t depth = measure(call);
    deepest = depth > deepest ? depth : deepest;
}

/* A process call by name and by kind, after which the command has this status. */
static void process(const char *name, struct payload p, unsigned status)
{
    static struct guest before;
    static char by_kind[80];
    before = guest;
    post(&guest, &p);
    call((struct asked){name, BY_NAME, ROCKER_PROCESS, 0, 0, 0, 0});
    CHECK(outcome.completed == 0x8000 + status);
    guest = before;
    post(&guest, &p);
    snprintf(by_kind, sizeof by_kind, "call: %s", name);
    call((struct asked){by_kind, BY_KIND, ROCKER_PROCESS, 0, 0, 0, 0});
    CHECK(outcome.completed == 0x8000 + status);
}

static void frame_in(const char *name, const char *by_kind, uint64_t outputs)
{
    call((struct asked){name, BY_NAME, ROCKER_FRAME, 1, 0, 0, 0});
    CHECK(outcome.outputs == outputs);
    call((struct asked){by_kind, BY_KIND, ROCKER_FRAME, 1, 0, 0, 0});
    CHECK(outcome.outputs == outputs);
}

static void bridged(const char *name, const char *by_kind, const uint8_t mac[6], uint64_t outputs)
{
    frame_to(frame, mac);
    frame_in(name, by_kind, outputs);
}

/* Calls that do not look at the tables. */
static void registers(void)
{
    call((struct asked){"read", BY_NAME, ROCKER_READ, CREDITS, 4, 0, 0});
    call((struct asked){"read, refused", BY_NAME, ROCKER_READ, 3, 4, 0, 1});
    call((struct asked){"write", BY_NAME, ROCKER_WRITE, HEAD, 4, guest.head, 0});
    call((struct asked){"link", BY_NAME, ROCKER_LINK, 5, 0, 0, 0});
    call((struct asked){"header", BY_NAME, ROCKER_HEADER, 0, 0, 0, 0});
    call((struct asked){"call: read", BY_KIND, ROCKER_READ, CREDITS, 4, 0, 0});
    call((struct asked){"call: write", BY_KIND, ROCKER_WRITE, HEAD, 4, guest.head, 0});
    call((struct asked){"call: link", BY_KIND, ROCKER_LINK, 5, 1, 0, 0});
    call((struct asked){"call: header", BY_KIND, ROCKER_HEADER, 0, 0, 0, 0});
    call((struct asked){"call: a kind that is none", BY_KIND, 6, 0, 0, 0, 2});
}

static void bridging(void)
{
    static const uint8_t all[6] = {0xff, 0xff, 0xff, 0xff, 0xff, 0xff};
    uint8_t one[6], none[6];
    station(one, 247);
    station(none, 300);
    bridged("frame, one output", "call: frame, one output", one, 1);
    bridged("frame, miss", "call: frame, miss", none, 0);
    bridged("frame, flood of 62", "call: frame, flood of 62", all, 61);
    call((struct asked){"frame, refused", BY_NAME, ROCKER_FRAME, 63, 0, 0, 7});

    process("process, flow mod", ingress(FLOW_MOD, 1), 0);
    process("process, flow add", bridge(FLOW_ADD, 1000, none, interface_id(1)), 0);
    process("process, flow del", flow_del(1), 0);
    process("process, group add, 62 members", flood(GROUP_ADD, 2, 62), 0);
    process("process, group mod, 62 members", flood(GROUP_MOD, 1, 62), 0);
    process("process, group del", group_del(flood_id(1)), 0);
    process("process, ENOTSUP", command(99, &(struct payload){0}), 95);
    process("process, 4,096 bytes", longest(2), 0);
}

static void routing(unsigned ethertype)
{
    frame_by_router(frame, ethertype, ROUTES);
    frame_in("frame, routed", "call: frame, routed", 1);
    frame_by_router(frame, ethertype, 300);
    frame_in("frame, no route", "call: frame, no route", 0);
    process("process, flow add, a route", route(FLOW_ADD, 1000, ethertype, 300, 1), 0);
    process("process, flow mod, a route", route(FLOW_MOD, 4, ethertype, 1, 3), 0);
    process("process, flow mod, table 20", termination(FLOW_MOD, 3, ethertype), 0);
    process("process, group mod, type 2", neighbour(GROUP_MOD, 1), 0);
    process("process, group del, type 2", group_del(neighbour_id(1)), 0);
    process("process, group add, type 2", neighbour(GROUP_ADD, 1), 0);
}

static void refused_and_reset(void)
{
    post(&guest, &(struct payload){0});
    write_register(&guest, BASE_ADDR, 8, MEMORY);
    call((struct asked){"process, refused", BY_NAME, ROCKER_PROCESS, 0, 0, 0, 3});
    call((struct asked){"write, reset", BY_NAME, ROCKER_WRITE, CONTROL, 4, 1, 0});
    CHECK(outcome.reset == 1);
}

int main(void)
{
    size_t thread;
    printf("%-42s%7s of %d\n", "bytes of stack touched", "", ROCKER_STACK);
    thread = measure((struct asked){"the thread, without a call", NOTHING, 0, 0, 0, 0, 0});
    call((struct asked){"fresh", FRESH, 0, 62, 0, 0, 0});
    call((struct asked){"fresh, refused", FRESH, 0, 63, 0, 0, 7});
    with_bridge(&guest);
    registers();
    bridging();
    refused_and_reset();
    printf("250 routes, IPv4\n");
    with_routes(&guest, IPV4);
    routing(IPV4);
    printf("250 routes, IPv6\n");
    with_routes(&guest, IPV6);
    routing(IPV6);
    printf("the deepest call touched %zu bytes, of which the thread itself keeps %zu\n", deepest, thread);
    return 0;
}
