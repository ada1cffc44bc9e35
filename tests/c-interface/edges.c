/* What the console's scripts do not reach: numbers that ask for nothing, the bytes around what a call is given, the size of a device, and
 * an output's numbers by the names that the header has for them. */
#include "guest.h"

static struct {
    uint64_t before[8];
    struct rocker device;
    uint64_t after[8];
} held;
static struct rocker *const d = &held.device;
static uint8_t memory[64], frame[64], buffer[64], ones[64];
static uint16_t list[ROCKER_LIST];
static struct rocker_outcome o;

static uint32_t call(uint64_t kind, uint64_t a, uint64_t b)
{
    memset(&o, 9, sizeof o);
    return rocker_call(d, kind, a, b, 0, memory, sizeof memory, frame, sizeof frame, buffer, sizeof buffer, list, ROCKER_LIST, &o);
}

static int gives(uint64_t value, uint64_t bytes)
{
    return o.value == value && o.raised == 0 && o.completed == 0 && o.bytes == bytes && o.outputs == 0
        && o.reset == 0;
}

static uint64_t reads(uint64_t offset, uint64_t width)
{
    uint64_t value;
    return rocker_read(d, offset, width, &value) == 0 ? value : UINT64_MAX;
}

static uint32_t writes(uint64_t offset, uint64_t width, uint64_t value)
{
    memset(&o, 9, sizeof o);
    return rocker_write(d, offset, width, value, &o);
}

/* A frame of 64 bytes has one output, these numbers; what stood behind them in the list is kept. */
static int gives_one(const struct rocker *from, const uint16_t numbers[ROCKER_OUTPUT])
{
    uint64_t outputs;
    memset(list, 9, sizeof list);
    return rocker_frame(from, 1, frame, sizeof frame, list, ROCKER_LIST, &outputs) == 0 && outputs == 1
        && memcmp(list, numbers, 2 * ROCKER_OUTPUT) == 0 && list[ROCKER_OUTPUT] == 0x0909 && list[ROCKER_LIST - 1] == 0x0909;
}

/* A frame that is routed back to its port, with new MACs, and the same one bridged. */
static void routed_and_bridged(void)
{
    static const uint16_t routed[ROCKER_OUTPUT] = {1, VLAN, 1, 0x02aa, 0, 0x0001, 0x02bb, 0x0102, 0x0301};
    static const uint16_t bridged[ROCKER_OUTPUT] = {2, VLAN, 1};
    static struct guest g;
    uint8_t mac[6], expected[6];
    with_routes(&g, IPV6);
    frame_by_router(frame, IPV6, 62);
    CHECK(gives_one(&g.device, routed));
    CHECK(list[ROCKER_PORT] == 1 && list[ROCKER_VLAN] == VLAN && list[ROCKER_POP_VLAN] == 1);
    rocker_mac(list + ROCKER_SOURCE, mac);
    CHECK(memcmp(mac, router, 6) == 0);
    rocker_mac(list + ROCKER_DESTINATION, mac);
    neighbour_mac(expected, 1);
    CHECK(memcmp(mac, expected, 6) == 0);
    CHECK(carry_out(&g, flow_del(3)) == 0 && carry_out(&g, bridge(FLOW_ADD, 3, router, interface_id(2))) == 0);
    CHECK(gives_one(&g.device, bridged));
}

/* That a write resets the device is told where bit 0 of CONTROL is written by a width that it has, and nowhere else. */
static void tells(uint64_t offset, uint64_t width, uint64_t value, uint32_t answer, uint64_t reset)
{
    struct rocker_outcome other;
    static struct rocker copy;
    copy = *d;
    CHECK(writes(offset, width, value) == answer && o.reset == reset);
    memset(&other, 9, sizeof other);
    CHECK(rocker_call(&copy, ROCKER_WRITE, offset, width, value, memory, sizeof memory, frame, sizeof frame, buffer, sizeof buffer, list,
                      ROCKER_LIST, &other) == answer);
    CHECK(memcmp(&o, &other, sizeof o) == 0 && memcmp(d, &copy, sizeof copy) == 0);
}

static void resets(void)
{
    static struct guest g;
    uint64_t outputs;
    with_routes(&g, IPV6);
    frame_by_router(frame, IPV6, 62);
    *d = g.device;
    tells(CONTROL, 4, 0, 0, 0);
    tells(CONTROL, 4, 2, 0, 0);
    tells(CONTROL, 4, UINT64_MAX - 1, 0, 0);
    tells(CONTROL, 4, (uint64_t)1 << 32, 0, 0);
    tells(CONTROL, 8, 1, 1, 0);
    tells(CONTROL, 2, 1, 1, 0);
    tells(CONTROL + 1, 4, 1, 1, 0);
    tells(CONTROL + 4, 4, 1, 0, 0);
    tells(((uint64_t)1 << 32) + CONTROL, 4, 1, 1, 0);
    tells(0x1014, 4, 1, 0, 0);
    CHECK(rocker_frame(d, 1, frame, sizeof frame, list, ROCKER_LIST, &outputs) == 0 && outputs == 1);
    for (uint64_t value = 1; value != 0; value <<= 13) { /* bit 0 beside others, also beyond 32 bits */
        *d = g.device;
        tells(CONTROL, 4, value | 1, 0, 1);
        CHECK(reads(0x310, 8) == (UINT64_MAX >> 1) - 1 && reads(0x304, 4) == 62 && d->registers[14] == 0 && d->registers[15] == 0);
        CHECK(writes(ENABLE, 8, UINT64_MAX) == 0 && o.reset == 0);
        CHECK(rocker_frame(d, 1, frame, sizeof frame, list, ROCKER_LIST, &outputs) == 0 && outputs == 0);
    }
    tells(CONTROL, 4, 1, 0, 1); /* told again, also where there was nothing to empty */
}

static struct rocker zero, was;

/* A device of ones is written from its first to its last byte, and not beyond. */
static void made(void)
{
    memset(ones, 1, sizeof ones);
    memset(&held, 1, sizeof held);
    was = *d;
    CHECK(rocker_size() == sizeof held.device);
    CHECK(rocker_fresh(d, 0, 0) == 7 && rocker_fresh(d, 63, 0) == 7 && memcmp(d, &was, sizeof was) == 0);
    CHECK(rocker_fresh(d, ((uint64_t)1 << 32) + 4, 0) == 7 && memcmp(d, &was, sizeof was) == 0);
    CHECK(rocker_fresh(d, 62, 0) == 0);
    CHECK(memcmp(d->flows, zero.flows, sizeof zero - sizeof zero.registers) == 0 && d->registers[0] == 0);
    CHECK(memcmp(d->registers + 6, zero.registers + 6, sizeof zero.registers - 6 * sizeof zero.registers[0]) == 0);
    CHECK(rocker_fresh(d, 62, 7) == 0);
    CHECK(memcmp(held.before, ones, sizeof ones) == 0 && memcmp(held.after, ones, sizeof ones) == 0);
}

/* Refused for its numbers: 2, and six zeros. */
static void by_kind(void)
{
    was = *d;
    CHECK(call(6, 0, 0) == 2 && gives(0, 0));
    CHECK(call(UINT64_MAX, 0, 0) == 2 && gives(0, 0));
    CHECK(call((uint64_t)1 << 32, 0x320, 8) == 2 && gives(0, 0));
    CHECK(call(ROCKER_LINK, 1, 2) == 2 && gives(0, 0));
    CHECK(call(ROCKER_LINK, 1, ((uint64_t)1 << 32) + 1) == 2 && gives(0, 0));
    CHECK(call(ROCKER_LINK, 63, 1) == 7 && gives(0, 0));
    CHECK(call(ROCKER_LINK, ((uint64_t)1 << 32) + 1, 1) == 7 && gives(0, 0));
    CHECK(call(ROCKER_READ, 0x321, 8) == 1 && gives(0, 0));
    CHECK(memcmp(d, &was, sizeof was) == 0);
    CHECK(call(ROCKER_LINK, 62, 1) == 0 && gives(0, 0) && reads(0x310, 8) == (uint64_t)1 << 62);
    CHECK(call(ROCKER_READ, 0x320, 8) == 0 && gives(7, 0));
    CHECK(call(ROCKER_HEADER, 0, 0) == 0 && gives(0, 6) && memcmp(buffer, "RKT\3\0\76", 6) == 0);
}

/* The same by the calls' names. */
static void by_name(void)
{
    uint64_t outputs;
    was = *d;
    CHECK(rocker_link(d, 62, 2) == 2 && rocker_link(d, 0, 2) == 2 && rocker_link(d, 62, UINT64_MAX) == 2);
    CHECK(rocker_link(d, 0, 1) == 7 && rocker_link(d, ((uint64_t)1 << 32) + 1, 1) == 7 && memcmp(d, &was, sizeof was) == 0);
    CHECK(rocker_link(d, 62, 0) == 0 && reads(0x310, 8) == 0);
    CHECK(writes(0x10, 4, 0x80000001) == 0 && gives(0, 0) && reads(0x10, 4) == 2);
    CHECK(writes(0x1008, 4, 3) == 2 && gives(0, 0));
    CHECK(writes(0x300, 4, 1) == 0 && o.reset == 1 && reads(0x10, 4) == 0 && reads(0x320, 8) == 7);
    memset(&o, 9, sizeof o);
    CHECK(rocker_header(d, buffer, 5, &o) == 6 && gives(0, 0));
    memset(&o, 9, sizeof o);
    CHECK(rocker_header(d, buffer, 6, &o) == 0 && gives(0, 6));
    memset(&o, 9, sizeof o);
    CHECK(rocker_process(d, memory, sizeof memory, buffer, sizeof buffer, &o) == 3 && gives(0, 0));
    outputs = 9;
    CHECK(rocker_frame(d, 1, frame, 13, list, ROCKER_LIST, &outputs) == 8 && outputs == 0);
    outputs = 9;
    CHECK(rocker_frame(d, 1, frame, sizeof frame, list, ROCKER_LIST - 1, &outputs) == 9 && outputs == 0);
    CHECK(memcmp(held.before, ones, sizeof ones) == 0 && memcmp(held.after, ones, sizeof ones) == 0);
}

/* All zero is a device without ports. */
static void zeros(void)
{
    uint64_t outputs;
    *d = zero;
    CHECK(rocker_link(d, 1, 1) == 7 && rocker_frame(d, 1, frame, sizeof frame, list, ROCKER_LIST, &outputs) == 7);
    CHECK(rocker_process(d, memory, sizeof memory, buffer, sizeof buffer, &o) == 3);
    CHECK(memcmp(d, &zero, sizeof zero) == 0);
}

int main(void)
{
    made();
    by_kind();
    by_name();
    zeros();
    routed_and_bridged();
    resets();
    return 0;
}
