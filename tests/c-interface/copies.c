/* The bytes that a call copies. memcpy, memmove and memset, which the archive calls for what is long, are counted on their way
 * (`-Wl,--wrap=memcpy,--wrap=memmove,--wrap=memset`). No call may copy a table: the flows have 22,528 bytes, the groups' heads 4,096 and
 * their members 15,872. */
#include "guest.h"

/* What a call may copy besides the payload and one row of a table for each that is changed. */
enum { LIMIT = 1024 };

static struct guest guest;
static uint8_t frame[64];
static uint16_t list[ROCKER_LIST];
static size_t copied, largest, filled;
static size_t most;

void *__real_memcpy(void *to, const void *from, size_t n);
void *__real_memmove(void *to, const void *from, size_t n);
void *__real_memset(void *to, int byte, size_t n);
void *__wrap_memcpy(void *to, const void *from, size_t n);
void *__wrap_memmove(void *to, const void *from, size_t n);
void *__wrap_memset(void *to, int byte, size_t n);

static void count(size_t n)
{
    copied += n;
    largest = n > largest ? n : largest;
}

void *__wrap_memcpy(void *to, const void *from, size_t n)
{
    count(n);
    return __real_memcpy(to, from, n);
}

void *__wrap_memmove(void *to, const void *from, size_t n)
{
    count(n);
    return __real_memmove(to, from, n);
}

void *__wrap_memset(void *to, int byte, size_t n)
{
    filled += n;
    return __real_memset(to, byte, n);
}

static void begin(void)
{
    copied = largest = filled = 0;
}

static void end(const char *name, size_t payload, size_t may_fill)
{
    size_t a = copied, b = largest, c = filled;
    printf("%-36s%10zu%10zu%10zu\n", name, a, b, c);
    CHECK(a <= payload + LIMIT && c <= may_fill + LIMIT);
    most = a > most ? a : most;
}

static void process(const char *name, struct payload p, unsigned status)
{
    struct rocker_outcome o;
    post(&guest, &p);
    begin();
    CHECK(rocker_process(&guest.device, guest.memory, sizeof guest.memory, guest.buffer, sizeof guest.buffer, &o) == 0);
    end(name, p.length, 0);
    CHECK(o.completed == 0x8000 + status);
    write_register(&guest, CREDITS, 4, 1);
}

static void frame_in(const char *name, uint64_t outputs)
{
    uint64_t got;
    begin();
    CHECK(rocker_frame(&guest.device, 1, frame, sizeof frame, list, ROCKER_LIST, &got) == 0);
    end(name, 0, 0);
    CHECK(got == outputs);
}

static void bridged(const char *name, const uint8_t mac[6], uint64_t outputs)
{
    frame_to(frame, mac);
    frame_in(name, outputs);
}

static void routed(const char *name, unsigned ethertype, unsigned n, uint64_t outputs)
{
    frame_by_router(frame, ethertype, n);
    frame_in(name, outputs);
}

/* The wrappers do stand under the archive: fresh fills the tables, by memset or as copies. */
static void fresh(void)
{
    begin();
    CHECK(rocker_fresh(&guest.device, 62, 1) == 0);
    printf("%-36s%10zu%10zu%10zu\n", "fresh", copied, largest, filled);
    CHECK(filled >= sizeof guest.device.flows && copied <= LIMIT);
}

/* Calls that do not look at the tables. */
static void registers(void)
{
    struct rocker_outcome o;
    uint64_t value;
    begin();
    CHECK(rocker_read(&guest.device, CREDITS, 4, &value) == 0);
    end("read", 0, 0);
    begin();
    CHECK(rocker_write(&guest.device, HEAD, 4, guest.head, &o) == 0);
    end("write", 0, 0);
    begin();
    CHECK(rocker_link(&guest.device, 62, 1) == 0);
    end("link", 0, 0);
    begin();
    CHECK(rocker_header(&guest.device, guest.buffer, sizeof guest.buffer, &o) == 0);
    end("header", 0, 0);
    begin();
    CHECK(rocker_call(&guest.device, ROCKER_READ, CREDITS, 4, 0, guest.memory, sizeof guest.memory, frame, sizeof frame, guest.buffer,
                      sizeof guest.buffer, list, ROCKER_LIST, &o) == 0);
    end("call: read", 0, 0);
}

static void bridging(void)
{
    static const uint8_t all[6] = {0xff, 0xff, 0xff, 0xff, 0xff, 0xff};
    uint8_t one[6], none[6];
    station(one, 247);
    station(none, 300);
    bridged("frame, one output", one, 1);
    bridged("frame, miss", none, 0);
    bridged("frame, flood of 62", all, 61);
    process("process, flow mod", ingress(FLOW_MOD, 1), 0);
    process("process, flow add", ingress(FLOW_ADD, 1000), 0);
    process("process, flow add, EEXIST", ingress(FLOW_ADD, 1000), 17);
    process("process, flow del", flow_del(1000), 0);
    process("process, group add, 62 members", flood(GROUP_ADD, 2, 62), 0);
    process("process, group mod, 62 members", flood(GROUP_MOD, 2, 62), 0);
    process("process, group del", group_del(flood_id(2)), 0);
    process("process, 4,096 bytes", longest(1), 0);
}

static void routing(unsigned ethertype)
{
    routed("frame, routed", ethertype, ROUTES, 1);
    routed("frame, no route", ethertype, 300, 0);
    process("process, flow add, a route", route(FLOW_ADD, 1000, ethertype, 300, 1), 0);
    process("process, flow mod, a route", route(FLOW_MOD, 1000, ethertype, 300, 2), 0);
    process("process, flow del", flow_del(1000), 0);
    process("process, group mod, type 2", neighbour(GROUP_MOD, 1), 0);
    process("process, group del, type 2", group_del(neighbour_id(1)), 0);
    process("process, group add, type 2", neighbour(GROUP_ADD, 1), 0);
}

static void title(const char *name)
{
    printf("%-36s%10s%10s%10s\n", name, "copied", "at once", "filled");
}

int main(void)
{
    struct rocker_outcome o;
    title("bytes, 250 flows and 63 groups live");
    fresh();
    with_bridge(&guest);
    registers();
    bridging();
    begin();
    CHECK(rocker_write(&guest.device, CONTROL, 4, 1, &o) == 0);
    end("write, reset", 0, 0);
    CHECK(o.reset == 1);
    title("bytes, 250 routes, IPv4");
    with_routes(&guest, IPV4);
    routing(IPV4);
    title("bytes, 250 routes, IPv6");
    with_routes(&guest, IPV6);
    routing(IPV6);
    printf("no call copies a table; the most that one copied is %zu bytes\n", most);
    return 0;
}
