/* Each constant of the header, held to the device: registers at these offsets do what document 01 says, each answer and each status is met,
 * a descriptor, an output and a journal have their parts where the header says. `run` sees that no name of the header is missing here.
 * Written in what C99 and C++11 have in common, and compiled as both. */
#include <stdio.h>
#include <stdlib.h>
#include <string.h>

#include "rocker.h"

#define CHECK(test)                                                                \
    do {                                                                           \
        if (!(test)) {                                                             \
            printf("%s:%d: %s does not hold\n", __FILE__, __LINE__, #test);        \
            exit(1);                                                               \
        }                                                                          \
    } while (0)

enum { VLAN = 5, FLOW_ADD = 3, FLOW_MOD = 4, FLOW_DEL = 5, GROUP_ADD = 7, PLACE = 0x1000, MEMORY = 0x4000, SLOTS = 8 };

static struct rocker device;
static struct rocker *const d = &device;
static struct rocker_outcome o;
static uint8_t memory[MEMORY], buffer[ROCKER_RECORD], frame[ROCKER_FRAME_MOST + 1];
static uint16_t list[ROCKER_LIST];
static uint64_t head;

static uint32_t set(uint64_t offset, uint64_t width, uint64_t value)
{
    return rocker_write(d, offset, width, value, &o);
}

static uint64_t get(uint64_t offset, uint64_t width)
{
    uint64_t value;
    CHECK(rocker_read(d, offset, width, &value) == ROCKER_DONE);
    return value;
}

static uint32_t process(size_t room)
{
    return rocker_process(d, memory, sizeof memory, buffer, room, &o);
}

/* ---- The guest */

static void little(uint8_t *to, uint64_t value, unsigned width)
{
    for (unsigned i = 0; i < width; i++)
        to[i] = (uint8_t)(value >> 8 * i);
}

static uint8_t *tlv(uint8_t *at, uint32_t type, const void *value, size_t length)
{
    memset(at, 0, 8 + (length + 7) / 8 * 8);
    little(at, type, 4);
    little(at + 4, 8 + length, 2);
    memcpy(at + 8, value, length);
    return at + 8 + (length + 7) / 8 * 8;
}

static uint8_t *number(uint8_t *at, uint32_t type, uint64_t value, unsigned width)
{
    uint8_t bytes[8];
    little(bytes, value, width);
    return tlv(at, type, bytes, width);
}

static uint8_t *big(uint8_t *at, uint32_t type, unsigned value)
{
    uint8_t bytes[2];
    bytes[0] = (uint8_t)(value >> 8);
    bytes[1] = (uint8_t)value;
    return tlv(at, type, bytes, 2);
}

/* A device of so many ports, all up and enabled, with an empty ring at guest address 0. */
static void start(uint64_t ports)
{
    CHECK(rocker_fresh(d, ports, 0x0123456789abcdef) == ROCKER_DONE);
    for (uint64_t port = 1; port <= ports; port++)
        CHECK(rocker_link(d, port, 1) == ROCKER_DONE);
    CHECK(set(ROCKER_REG_PORT_PHYS_ENABLE, 8, UINT64_MAX) == ROCKER_DONE && set(ROCKER_REG_BASE_ADDR, 8, 0) == ROCKER_DONE);
    CHECK(set(ROCKER_REG_SIZE, 4, SLOTS) == ROCKER_DONE);
    head = 0;
}

/* The slot at HEAD is described and posted. */
static uint8_t *post(uint64_t place, size_t lent, size_t length)
{
    uint8_t *descriptor = memory + ROCKER_DESC_BYTES * head;
    memset(descriptor, 0x55, ROCKER_DESC_BYTES);
    little(descriptor + ROCKER_DESC_BUF_ADDR, place, 8);
    little(descriptor + ROCKER_DESC_BUF_SIZE, lent, 2);
    little(descriptor + ROCKER_DESC_TLV_SIZE, length, 2);
    head = (head + 1) % SLOTS;
    CHECK(set(ROCKER_REG_HEAD, 4, head) == ROCKER_DONE);
    return descriptor;
}

/* The slot that was posted is processed: its status. Of the descriptor COMP_ERR changes, the cookie and all else stay. */
static uint64_t status_of(uint8_t *descriptor)
{
    uint8_t was[ROCKER_DESC_BYTES];
    uint64_t completed;
    memcpy(was, descriptor, sizeof was);
    CHECK(process(sizeof buffer) == ROCKER_DONE && o.reset == 0 && o.completed >= ROCKER_COMPLETED);
    completed = o.completed;
    little(was + ROCKER_DESC_COMP_ERR, completed, 2);
    CHECK(memcmp(was, descriptor, sizeof was) == 0 && memcmp(buffer, descriptor + ROCKER_DESC_COMP_ERR, 2) == 0);
    CHECK(memcmp(descriptor + ROCKER_DESC_COOKIE, "UUUUUUUU", 8) == 0);
    CHECK(set(ROCKER_REG_CREDITS, 4, 1) == ROCKER_DONE);
    return completed - ROCKER_COMPLETED;
}

static uint8_t fields[2048];

/* A command of the fields up to `end`, carried out; its status. */
static uint64_t carry_out(unsigned kind, const uint8_t *end)
{
    uint8_t *payload = memory + PLACE, *last = tlv(number(payload, 1, kind, 2), 2, fields, (size_t)(end - fields));
    return status_of(post(PLACE, (size_t)(last - payload), (size_t)(last - payload)));
}

static uint8_t *flow(unsigned table, uint64_t cookie, unsigned go_to)
{
    return number(number(number(number(fields, 1, table, 2), 2, 1, 4), 5, cookie, 8), 9, go_to, 2);
}

static uint64_t add_flow(uint64_t cookie)
{
    return carry_out(FLOW_ADD, number(number(flow(0, cookie, 10), 6, 0, 4), 7, 0, 4));
}

/* The group of one port, on any VLAN. */
static uint64_t add_interface(unsigned vlan, unsigned port, unsigned pop)
{
    return carry_out(GROUP_ADD, number(number(number(fields, 10, vlan << 16 | port, 4), 8, port, 4), 43, pop, 1));
}

static const uint8_t router[6] = {2, 0xaa, 0, 0, 0, 1}, neighbour[6] = {2, 0xbb, 1, 2, 3, 4}, all[6] = {255, 255, 255, 255, 255, 255};

/* Frames from port 1 on the VLAN to all stations are flooded: port 0, and all but port 1. Those to 192.0.2.0/24 are routed to port 3. */
static void make_switch(void)
{
    static const uint8_t network[4] = {192, 0, 2, 0}, mask[4] = {255, 255, 255, 0};
    static uint8_t members[16 * ROCKER_OUTPUTS];
    uint8_t *at = members;
    start(ROCKER_PORTS);
    for (unsigned port = 0; port <= ROCKER_PORTS; port++)
        CHECK(port == 1 || add_interface(VLAN, port, port == 3) == ROCKER_STATUS_OK);
    for (unsigned k = 1; k <= ROCKER_OUTPUTS; k++)
        at = number(at, k, VLAN << 16 | (k == 1 ? 0 : k), 4);
    at = tlv(number(number(fields, 10, 4u << 28 | VLAN << 16 | 1, 4), 12, ROCKER_OUTPUTS, 2), 13, members, (size_t)(at - members));
    CHECK(carry_out(GROUP_ADD, at) == ROCKER_STATUS_OK);
    CHECK(carry_out(FLOW_ADD, big(number(flow(10, 1, 20), 6, 1, 4), 14, VLAN)) == ROCKER_STATUS_OK);
    at = number(tlv(big(flow(50, 2, 60), 14, VLAN), 24, all, 6), 10, 4u << 28 | VLAN << 16 | 1, 4);
    CHECK(carry_out(FLOW_ADD, at) == ROCKER_STATUS_OK);
    at = big(number(number(fields, 10, 2u << 28 | 3, 4), 11, VLAN << 16 | 3, 4), 14, VLAN);
    CHECK(carry_out(GROUP_ADD, tlv(tlv(at, 24, neighbour, 6), 26, router, 6)) == ROCKER_STATUS_OK);
    at = tlv(big(big(number(flow(20, 3, 30), 6, 1, 4), 14, VLAN), 23, 0x0800), 24, router, 6);
    CHECK(carry_out(FLOW_ADD, at) == ROCKER_STATUS_OK);
    at = tlv(tlv(big(number(flow(30, 4, 60), 10, 2u << 28 | 3, 4), 23, 0x0800), 36, network, 4), 37, mask, 4);
    CHECK(carry_out(FLOW_ADD, at) == ROCKER_STATUS_OK);
}

/* ---- What is held to the device */

static void registers(void)
{
    start(4);
    for (uint64_t offset = ROCKER_REG_BOGUS; offset < ROCKER_REG_BOGUS + 16; offset += 4)
        CHECK(get(offset, 4) == ROCKER_BOGUS && set(offset, 4, 1) == ROCKER_DONE && get(offset, 4) == ROCKER_BOGUS);
    CHECK(set(ROCKER_REG_TEST, 4, 0x80000001) == ROCKER_DONE && get(ROCKER_REG_TEST, 4) == 2);
    CHECK(set(ROCKER_REG_TEST64, 8, UINT64_MAX) == ROCKER_DONE && get(ROCKER_REG_TEST64, 8) == UINT64_MAX - 1);
    CHECK(get(ROCKER_REG_PORT_PHYS_COUNT, 4) == 4 && get(ROCKER_REG_SWITCH_ID, 8) == 0x0123456789abcdef);
    CHECK(rocker_link(d, 2, 0) == ROCKER_DONE && get(ROCKER_REG_PORT_PHYS_LINK_STATUS, 8) == 0x1a);
    CHECK(set(ROCKER_REG_PORT_PHYS_ENABLE, 8, 0xff0f) == ROCKER_DONE && get(ROCKER_REG_PORT_PHYS_ENABLE, 8) == 0x0e);
    for (unsigned k = 0; k < 2; k++) { /* read only */
        CHECK(set(k ? ROCKER_REG_TAIL : ROCKER_REG_PORT_PHYS_COUNT, 4, 3) == ROCKER_DONE);
        CHECK(set(k ? ROCKER_REG_SWITCH_ID : ROCKER_REG_PORT_PHYS_LINK_STATUS, 8, 0) == ROCKER_DONE);
    }
    CHECK(get(ROCKER_REG_PORT_PHYS_COUNT, 4) == 4 && get(ROCKER_REG_TAIL, 4) == 0 && get(ROCKER_REG_SWITCH_ID, 8) == 0x0123456789abcdef);
    CHECK(set(ROCKER_REG_TEST, 8, 0) == ROCKER_BAD_ACCESS && set(ROCKER_REG_CONTROL, 8, ROCKER_RESET) == ROCKER_BAD_ACCESS);
    CHECK(get(ROCKER_REG_END - 4, 4) == 0 && get(ROCKER_REG_END - 8, 8) == 0);
    CHECK(set(ROCKER_REG_END, 4, 0) == ROCKER_BAD_ACCESS && set(ROCKER_REG_END, 8, 0) == ROCKER_BAD_ACCESS);
}

static void ring(void)
{
    start(4);
    CHECK(set(ROCKER_REG_BASE_ADDR, 8, 4) == ROCKER_BAD_VALUE && set(ROCKER_REG_BASE_ADDR, 8, 0x100) == ROCKER_DONE);
    CHECK(get(ROCKER_REG_BASE_ADDR, 8) == 0x100 && set(ROCKER_REG_SIZE, 4, 6) == ROCKER_BAD_VALUE);
    CHECK(set(ROCKER_REG_SIZE, 4, 65536) == ROCKER_DONE && get(ROCKER_REG_SIZE, 4) == 65536);
    CHECK(set(ROCKER_REG_SIZE, 4, SLOTS) == ROCKER_DONE && set(ROCKER_REG_HEAD, 4, SLOTS) == ROCKER_BAD_VALUE);
    memset(memory, 0, sizeof memory);
    CHECK(set(ROCKER_REG_HEAD, 4, 3) == ROCKER_DONE && get(ROCKER_REG_HEAD, 4) == 3 && get(ROCKER_REG_TAIL, 4) == 0);
    for (unsigned k = 1; k <= 3; k++) /* the vector is raised where credits were 0 */
        CHECK(process(sizeof buffer) == ROCKER_DONE && o.raised == (k == 1) && get(ROCKER_REG_TAIL, 4) == k);
    CHECK(get(ROCKER_REG_CREDITS, 4) == 3 && memory[0x100 + 2 * ROCKER_DESC_BYTES + ROCKER_DESC_COMP_ERR] == ROCKER_STATUS_EINVAL);
    CHECK(set(ROCKER_REG_CREDITS, 4, 4) == ROCKER_BAD_VALUE && set(ROCKER_REG_CREDITS, 4, 1) == ROCKER_DONE && o.raised == 1);
    CHECK(get(ROCKER_REG_CREDITS, 4) == 2 && set(ROCKER_REG_CREDITS, 4, 2) == ROCKER_DONE && o.raised == 0);
    for (uint64_t bit = 0x80000000; bit != ROCKER_RESET; bit >>= 1)
        CHECK(bit != 0 && set(ROCKER_REG_CTRL, 4, bit) == ROCKER_DONE && get(ROCKER_REG_SIZE, 4) == SLOTS);
    CHECK(set(ROCKER_REG_CTRL, 4, ROCKER_RESET) == ROCKER_DONE && o.reset == 0 && get(ROCKER_REG_CTRL, 4) == 0);
    CHECK(get(ROCKER_REG_SIZE, 4) == 0 && get(ROCKER_REG_HEAD, 4) == 0 && get(ROCKER_REG_TAIL, 4) == 0);
    CHECK(get(ROCKER_REG_BASE_ADDR, 8) == 0);
    CHECK(set(ROCKER_REG_TEST, 4, 1) == ROCKER_DONE && set(ROCKER_REG_CONTROL, 4, ROCKER_RESET) == ROCKER_DONE && o.reset == 1);
    CHECK(get(ROCKER_REG_TEST, 4) == 0 && get(ROCKER_REG_CONTROL, 4) == 0 && ROCKER_VECTOR == 0);
}

/* As many credits as process takes: the guest returns none. */
static void credits(void)
{
    start(4);
    memset(memory, 0, sizeof memory);
    for (uint64_t k = 1; k <= ROCKER_CREDITS; k++)
        CHECK(set(ROCKER_REG_HEAD, 4, k % SLOTS) == ROCKER_DONE && process(sizeof buffer) == ROCKER_DONE);
    CHECK(get(ROCKER_REG_CREDITS, 4) == ROCKER_CREDITS && process(sizeof buffer) == ROCKER_IDLE);
    CHECK(set(ROCKER_REG_HEAD, 4, 1) == ROCKER_DONE && process(sizeof buffer) == ROCKER_CREDITS_FULL);
    CHECK(set(ROCKER_REG_CREDITS, 4, 1) == ROCKER_DONE && process(sizeof buffer) == ROCKER_DONE);
}

/* The longest record, and one byte less of room; its payload is a del, and a TLV that nobody asks for. */
static void longest(void)
{
    static const uint8_t fill[ROCKER_PAYLOAD] = {0};
    uint8_t *at;
    start(4);
    at = tlv(number(memory + PLACE, 1, FLOW_DEL, 2), 2, fields, (size_t)(number(fields, 5, 1, 8) - fields));
    at = tlv(at, 99, fill, (size_t)(memory + PLACE + ROCKER_PAYLOAD - at) - 8);
    CHECK(at == memory + PLACE + ROCKER_PAYLOAD);
    post(PLACE, ROCKER_PAYLOAD, ROCKER_PAYLOAD);
    CHECK(process(ROCKER_RECORD - 1) == ROCKER_SHORT_BUFFER);
    CHECK(process(ROCKER_RECORD) == ROCKER_DONE && o.bytes == ROCKER_RECORD && o.completed == ROCKER_COMPLETED + ROCKER_STATUS_ENOENT);
    CHECK(status_of(post(PLACE, ROCKER_PAYLOAD + 1, ROCKER_PAYLOAD + 1)) == ROCKER_STATUS_EMSGSIZE);
    CHECK(rocker_header(d, buffer, ROCKER_HEADER_BYTES - 1, &o) == ROCKER_SHORT_BUFFER);
    CHECK(rocker_header(d, buffer, ROCKER_HEADER_BYTES, &o) == ROCKER_DONE && o.bytes == ROCKER_HEADER_BYTES && o.reset == 0);
    CHECK(memcmp(buffer, "RKT\3\0\4", ROCKER_HEADER_BYTES) == 0);
}

/* The other statuses, and as many flows and groups as there are places for. */
static void statuses(void)
{
    start(4);
    for (uint64_t cookie = 1; cookie <= ROCKER_FLOWS; cookie++)
        CHECK(add_flow(cookie) == ROCKER_STATUS_OK);
    CHECK(add_flow(1) == ROCKER_STATUS_EEXIST && add_flow(ROCKER_FLOWS + 1) == ROCKER_STATUS_ENOMEM);
    for (unsigned vlan = 1; vlan <= ROCKER_GROUPS; vlan++)
        CHECK(add_interface(vlan, 1, 0) == ROCKER_STATUS_OK);
    CHECK(add_interface(1, 1, 0) == ROCKER_STATUS_EEXIST && add_interface(ROCKER_GROUPS + 1, 1, 0) == ROCKER_STATUS_ENOMEM);
    CHECK(carry_out(FLOW_MOD, number(number(flow(0, 1000, 10), 6, 0, 4), 7, 0, 4)) == ROCKER_STATUS_ENOENT);
    CHECK(carry_out(FLOW_DEL, number(fields, 5, 1000, 8)) == ROCKER_STATUS_ENOENT);
    CHECK(carry_out(FLOW_DEL, fields) == ROCKER_STATUS_EINVAL && carry_out(99, fields) == ROCKER_STATUS_ENOTSUP);
    CHECK(carry_out(FLOW_ADD, flow(40, 1000, 10)) == ROCKER_STATUS_ENOTSUP);
    CHECK(status_of(post(PLACE + 4, 8, 8)) == ROCKER_STATUS_ENXIO && status_of(post(MEMORY, 8, 8)) == ROCKER_STATUS_ENXIO);
    CHECK(status_of(post(PLACE, 8, 16)) == ROCKER_STATUS_EINVAL);
    CHECK(set(ROCKER_REG_BASE_ADDR, 8, MEMORY - ROCKER_DESC_BYTES) == ROCKER_DONE && set(ROCKER_REG_HEAD, 4, 2) == ROCKER_DONE);
    CHECK(process(sizeof buffer) == ROCKER_DONE && process(sizeof buffer) == ROCKER_BAD_DESCRIPTOR);
}

static void frame_for(const uint8_t mac[6])
{
    memset(frame, 0, 64);
    memcpy(frame, mac, 6);
    memcpy(frame + 12, "\x81\0\0\x05\x08\0", 6);
    memcpy(frame + 34, "\xc0\0\2\x09", 4); /* 192.0.2.9 */
}

static void outputs(void)
{
    uint64_t n;
    uint8_t mac[6];
    make_switch();
    frame_for(all);
    CHECK(rocker_frame(d, 1, frame, 64, list, ROCKER_LIST - 1, &n) == ROCKER_SHORT_LIST);
    CHECK(rocker_frame(d, 1, frame, 64, list, ROCKER_LIST, &n) == ROCKER_DONE && n == ROCKER_OUTPUTS && n * ROCKER_OUTPUT == ROCKER_LIST);
    for (unsigned k = 0; k < ROCKER_OUTPUTS; k++) {
        const uint16_t *numbers = list + ROCKER_OUTPUT * k;
        CHECK(numbers[ROCKER_PORT] == (k == 0 ? 0 : k + 1) && numbers[ROCKER_VLAN] == VLAN && numbers[ROCKER_POP_VLAN] == (k == 2));
        CHECK(memcmp(numbers + ROCKER_SOURCE, "\0\0\0\0\0\0\0\0\0\0\0", 12) == 0);
    }
    frame_for(router);
    CHECK(rocker_frame(d, 1, frame, 64, list, ROCKER_LIST, &n) == ROCKER_DONE && n == 1);
    CHECK(list[ROCKER_PORT] == 3 && list[ROCKER_VLAN] == VLAN && list[ROCKER_POP_VLAN] == 1);
    rocker_mac(list + ROCKER_SOURCE, mac);
    CHECK(memcmp(mac, router, 6) == 0);
    rocker_mac(list + ROCKER_DESTINATION, mac);
    CHECK(memcmp(mac, neighbour, 6) == 0);
    memset(frame, 0, sizeof frame);
    CHECK(rocker_frame(d, 1, frame, ROCKER_FRAME_LEAST - 1, list, ROCKER_LIST, &n) == ROCKER_BAD_FRAME);
    CHECK(rocker_frame(d, 1, frame, ROCKER_FRAME_LEAST, list, ROCKER_LIST, &n) == ROCKER_DONE);
    CHECK(rocker_frame(d, 1, frame, ROCKER_FRAME_MOST, list, ROCKER_LIST, &n) == ROCKER_DONE);
    CHECK(rocker_frame(d, 1, frame, ROCKER_FRAME_MOST + 1, list, ROCKER_LIST, &n) == ROCKER_BAD_FRAME);
    CHECK(rocker_frame(d, ROCKER_PORTS + 1, frame, 64, list, ROCKER_LIST, &n) == ROCKER_BAD_PORT);
    CHECK(rocker_fresh(d, ROCKER_PORTS + 1, 1) == ROCKER_BAD_PORT);
}

static uint32_t call(uint64_t kind, uint64_t a, uint64_t b, uint64_t c)
{
    return rocker_call(d, kind, a, b, c, memory, sizeof memory, frame, 64, buffer, sizeof buffer, list, ROCKER_LIST, &o);
}

static void kinds(void)
{
    make_switch();
    CHECK(call(ROCKER_READ, ROCKER_REG_SIZE, 4, 0) == ROCKER_DONE && o.value == SLOTS && o.reset == 0);
    CHECK(call(ROCKER_WRITE, ROCKER_REG_TEST, 4, 3) == ROCKER_DONE && o.value == 0 && get(ROCKER_REG_TEST, 4) == 6);
    CHECK(call(ROCKER_LINK, 1, 2, 0) == ROCKER_BAD_VALUE && call(ROCKER_LINK, 0, 1, 0) == ROCKER_BAD_PORT);
    CHECK(call(ROCKER_LINK, 2, 0, 0) == ROCKER_DONE && (get(ROCKER_REG_PORT_PHYS_LINK_STATUS, 8) & 7) == 2);
    CHECK(call(ROCKER_PROCESS, 0, 0, 0) == ROCKER_IDLE);
    post(PLACE, 0, 0);
    CHECK(call(ROCKER_PROCESS, 0, 0, 0) == ROCKER_DONE && o.completed == ROCKER_COMPLETED + ROCKER_STATUS_EINVAL && o.raised == 1);
    frame_for(all);
    CHECK(call(ROCKER_FRAME, 1, 0, 0) == ROCKER_DONE && o.outputs == ROCKER_OUTPUTS - 1 && o.bytes == 0);
    CHECK(call(ROCKER_HEADER, 0, 0, 0) == ROCKER_DONE && o.bytes == ROCKER_HEADER_BYTES && o.outputs == 0);
    CHECK(call(ROCKER_HEADER + 1, 0, 0, 0) == ROCKER_BAD_VALUE);
    CHECK(call(ROCKER_WRITE, ROCKER_REG_CONTROL, 4, ROCKER_RESET) == ROCKER_DONE && o.reset == 1 && o.raised == 0);
    CHECK(call(ROCKER_FRAME, 1, 0, 0) == ROCKER_DONE && o.outputs == 0 && o.reset == 0);
}

int main(void)
{
    CHECK(rocker_size() == sizeof device);
    registers();
    ring();
    credits();
    longest();
    statuses();
    outputs();
    kinds();
    return 0;
}
