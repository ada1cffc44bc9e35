/* What the tests of the C interface share: payloads as a guest writes them, a switch with its guest, and numbers at random. */
#ifndef GUEST_H
#define GUEST_H

#include <inttypes.h>
#include <stdio.h>
#include <stdlib.h>
#include <string.h>

#include "rocker.h"

#define CHECK(test)                                                                \
    do {                                                                           \
        if (!(test)) {                                                             \
            printf("%s:%d: %s does not hold\n", __FILE__, __LINE__, #test);        \
            exit(1);                                                               \
        }                                                                          \
    } while (0)

enum { BASE_ADDR = 0x1000, SIZE = 0x1008, HEAD = 0x100c, CREDITS = 0x1018, CONTROL = 0x300, ENABLE = 0x318 };
enum { FLOW_ADD = 3, FLOW_MOD = 4, FLOW_DEL = 5, GROUP_ADD = 7, GROUP_MOD = 8, GROUP_DEL = 9 };
enum { VLAN = 5, RING = 512, PLACE = 0x8000, MEMORY = 0x10000, LONGEST = 4096 };
enum { IPV4 = 0x0800, IPV6 = 0x86dd, ROUTES = 250 };

/* ---- Payloads: TLVs one after the other; a TLV's length counts its header, 8 bytes, and the value */

struct payload {
    size_t length;
    uint8_t bytes[LONGEST];
};

static inline void little(uint8_t *to, uint64_t value, unsigned width)
{
    for (unsigned i = 0; i < width; i++)
        to[i] = (uint8_t)(value >> 8 * i);
}

static inline void tlv(struct payload *p, uint32_t type, const void *value, size_t length)
{
    uint8_t *at = p->bytes + p->length;
    size_t filled = (length + 7) / 8 * 8;
    CHECK(p->length + 8 + filled <= sizeof p->bytes);
    memset(at, 0, 8 + filled);
    little(at, type, 4);
    little(at + 4, 8 + length, 2);
    memcpy(at + 8, value, length);
    p->length += 8 + filled;
}

static inline void number(struct payload *p, uint32_t type, uint64_t value, unsigned width)
{
    uint8_t bytes[8];
    little(bytes, value, width);
    tlv(p, type, bytes, width);
}

/* A VLAN and an EtherType are big-endian. */
static inline void big(struct payload *p, uint32_t type, unsigned value)
{
    const uint8_t bytes[2] = {(uint8_t)(value >> 8), (uint8_t)value};
    tlv(p, type, bytes, 2);
}

static inline void vlan_id(struct payload *p)
{
    big(p, 14, VLAN);
}

static inline struct payload command(unsigned kind, const struct payload *fields)
{
    struct payload p = {0};
    number(&p, 1, kind, 2);
    tlv(&p, 2, fields->bytes, fields->length);
    return p;
}

static inline struct payload flow(unsigned table, uint64_t cookie, unsigned go_to)
{
    struct payload p = {0};
    number(&p, 1, table, 2);
    number(&p, 2, 1, 4);
    number(&p, 5, cookie, 8);
    number(&p, 9, go_to, 2);
    return p;
}

/* Frames from any port go on to table 10. */
static inline struct payload ingress(unsigned kind, uint64_t cookie)
{
    struct payload p = flow(0, cookie, 10);
    number(&p, 6, 1, 4);
    number(&p, 7, 0, 4);
    return command(kind, &p);
}

/* Frames from port 1 on the VLAN go on to table 20. */
static inline struct payload vlan(unsigned kind, uint64_t cookie)
{
    struct payload p = flow(10, cookie, 20);
    number(&p, 6, 1, 4);
    vlan_id(&p);
    return command(kind, &p);
}

/* Frames of the VLAN to a station go to a group. */
static inline struct payload bridge(unsigned kind, uint64_t cookie, const uint8_t mac[6], uint32_t group)
{
    struct payload p = flow(50, cookie, 60);
    vlan_id(&p);
    tlv(&p, 24, mac, 6);
    number(&p, 10, group, 4);
    return command(kind, &p);
}

/* The router's own MAC, and that of the neighbour behind a port. */
static const uint8_t router[6] = {2, 0xaa, 0, 0, 0, 1};

static inline void neighbour_mac(uint8_t mac[6], unsigned port)
{
    const uint8_t bytes[6] = {2, 0xbb, 1, 2, 3, (uint8_t)port};
    memcpy(mac, bytes, 6);
}

static inline unsigned address_length(unsigned ethertype)
{
    return ethertype == IPV6 ? 16 : 4;
}

/* Network n: 10.0.n.0/24, or fd00:0:0:n::/64. */
static inline unsigned network(uint8_t address[16], unsigned ethertype, unsigned n)
{
    memset(address, 0, 16);
    address[0] = ethertype == IPV6 ? 0xfd : 10;
    address[ethertype == IPV6 ? 6 : 1] = (uint8_t)(n >> 8);
    address[ethertype == IPV6 ? 7 : 2] = (uint8_t)n;
    return ethertype == IPV6 ? 64 : 24;
}

/* Frames from port 1 on the VLAN to the router's MAC go on to table 30. */
static inline struct payload termination(unsigned kind, uint64_t cookie, unsigned ethertype)
{
    struct payload p = flow(20, cookie, 30);
    number(&p, 6, 1, 4);
    vlan_id(&p);
    big(&p, 23, ethertype);
    tlv(&p, 24, router, 6);
    return command(kind, &p);
}

static inline uint32_t neighbour_id(unsigned port)
{
    return (uint32_t)2 << 28 | port;
}

/* Frames to network n go to the neighbour behind a port. */
static inline struct payload route(unsigned kind, uint64_t cookie, unsigned ethertype, unsigned n, unsigned port)
{
    uint8_t address[16], mask[16] = {0};
    unsigned first = ethertype == IPV6 ? 38 : 36;
    struct payload p = flow(30, cookie, 60);
    memset(mask, 0xff, network(address, ethertype, n) / 8);
    number(&p, 10, neighbour_id(port), 4);
    big(&p, 23, ethertype);
    tlv(&p, first, address, address_length(ethertype));
    tlv(&p, first + 1, mask, address_length(ethertype));
    return command(kind, &p);
}

static inline struct payload flow_del(uint64_t cookie)
{
    struct payload p = {0};
    number(&p, 5, cookie, 8);
    return command(FLOW_DEL, &p);
}

static inline uint32_t interface_id(unsigned port)
{
    return VLAN << 16 | port;
}

static inline uint32_t flood_id(unsigned index)
{
    return (uint32_t)4 << 28 | VLAN << 16 | index;
}

/* The group of one port. */
static inline struct payload interface(unsigned kind, unsigned port)
{
    struct payload p = {0};
    number(&p, 10, interface_id(port), 4);
    number(&p, 8, port, 4);
    number(&p, 43, 1, 1);
    return command(kind, &p);
}

/* A flood to the ports from 1 on. */
static inline struct payload flood(unsigned kind, unsigned index, unsigned ports)
{
    struct payload p = {0}, members = {0};
    for (unsigned k = 1; k <= ports; k++)
        number(&members, k, interface_id(k), 4);
    number(&p, 10, flood_id(index), 4);
    number(&p, 12, ports, 2);
    tlv(&p, 13, members.bytes, members.length);
    return command(kind, &p);
}

/* The neighbour behind a port: the group of that port, with both MACs. */
static inline struct payload neighbour(unsigned kind, unsigned port)
{
    uint8_t mac[6];
    struct payload p = {0};
    neighbour_mac(mac, port);
    number(&p, 10, neighbour_id(port), 4);
    number(&p, 11, interface_id(port), 4);
    vlan_id(&p);
    tlv(&p, 24, mac, 6);
    tlv(&p, 26, router, 6);
    return command(kind, &p);
}

static inline struct payload group_del(uint32_t id)
{
    struct payload p = {0};
    number(&p, 10, id, 4);
    return command(GROUP_DEL, &p);
}

/* A payload of 4,096 bytes: a flow del, and a TLV that nobody asks for. */
static inline struct payload longest(uint64_t cookie)
{
    static const uint8_t fill[LONGEST];
    struct payload p = flow_del(cookie);
    tlv(&p, 99, fill, LONGEST - 8 - p.length);
    return p;
}

static inline void station(uint8_t mac[6], unsigned number)
{
    memset(mac, 0, 6);
    mac[0] = 2;
    mac[4] = (uint8_t)(number >> 8);
    mac[5] = (uint8_t)number;
}

/* A tagged frame of the VLAN to a station, 64 bytes. */
static inline void frame_to(uint8_t frame[64], const uint8_t mac[6])
{
    static const uint8_t rest[10] = {2, 1, 1, 1, 1, 1, 0x81, 0, 0, VLAN};
    memset(frame, 0, 64);
    memcpy(frame, mac, 6);
    memcpy(frame + 6, rest, sizeof rest);
}

/* A tagged frame of the VLAN to host 1 of network n, by the router. */
static inline void frame_by_router(uint8_t frame[64], unsigned ethertype, unsigned n)
{
    uint8_t address[16];
    unsigned length = address_length(ethertype);
    network(address, ethertype, n);
    address[length - 1] = 1;
    frame_to(frame, router);
    frame[16] = (uint8_t)(ethertype >> 8);
    frame[17] = (uint8_t)ethertype;
    memcpy(frame + 18 + (ethertype == IPV6 ? 24 : 16), address, length);
}

/* ---- A switch of 62 ports, all up and enabled, with its guest: descriptors from 0, the payload at PLACE */

struct guest {
    struct rocker device;
    uint8_t memory[MEMORY];
    uint8_t buffer[6 + LONGEST];
    uint64_t head;
};

static inline void write_register(struct guest *g, uint64_t offset, uint64_t width, uint64_t value)
{
    struct rocker_outcome o;
    CHECK(rocker_write(&g->device, offset, width, value, &o) == 0);
}

static inline void start(struct guest *g)
{
    memset(g, 0, sizeof *g);
    CHECK(rocker_fresh(&g->device, 62, 1) == 0);
    for (uint64_t port = 1; port <= 62; port++)
        CHECK(rocker_link(&g->device, port, 1) == 0);
    write_register(g, BASE_ADDR, 8, 0);
    write_register(g, SIZE, 4, RING);
    write_register(g, ENABLE, 8, UINT64_MAX);
}

static inline void describe(uint8_t descriptor[32], uint64_t place, size_t length)
{
    memset(descriptor, 0, 32);
    little(descriptor, place, 8);
    little(descriptor + 16, length, 2);
    little(descriptor + 18, length, 2);
}

static inline void post(struct guest *g, const struct payload *p)
{
    memcpy(g->memory + PLACE, p->bytes, p->length);
    describe(g->memory + 32 * g->head, PLACE, p->length);
    g->head = (g->head + 1) % RING;
    write_register(g, HEAD, 4, g->head);
}

/* A command posted and processed, with its credit given back; the status of it. */
static inline unsigned carry_out(struct guest *g, struct payload p)
{
    struct rocker_outcome o;
    post(g, &p);
    CHECK(rocker_process(&g->device, g->memory, sizeof g->memory, g->buffer, sizeof g->buffer, &o) == 0);
    write_register(g, CREDITS, 4, 1);
    return (unsigned)o.completed - 0x8000;
}

static inline void with_flows(struct guest *g, unsigned flows)
{
    start(g);
    for (unsigned cookie = 1; cookie <= flows; cookie++)
        CHECK(carry_out(g, ingress(FLOW_ADD, cookie)) == 0);
}

/* 62 groups of one port and a flood of all of them; one flow each in tables 0 and 10, 247 stations in table 50 and, last, the flood. */
static inline void with_bridge(struct guest *g)
{
    uint8_t mac[6];
    start(g);
    for (unsigned port = 1; port <= 62; port++)
        CHECK(carry_out(g, interface(GROUP_ADD, port)) == 0);
    CHECK(carry_out(g, flood(GROUP_ADD, 1, 62)) == 0);
    CHECK(carry_out(g, ingress(FLOW_ADD, 1)) == 0);
    CHECK(carry_out(g, vlan(FLOW_ADD, 2)) == 0);
    for (unsigned n = 1; n <= 247; n++) {
        station(mac, n);
        CHECK(carry_out(g, bridge(FLOW_ADD, 2 + n, mac, interface_id(2 + n % 60))) == 0);
    }
    memset(mac, 0xff, 6);
    CHECK(carry_out(g, bridge(FLOW_ADD, 250, mac, flood_id(1))) == 0);
}

/* 62 groups of one port and as many neighbours; one flow each in tables 0, 10 and 20, and routes to networks 1 to 250. */
static inline void with_routes(struct guest *g, unsigned ethertype)
{
    start(g);
    for (unsigned port = 1; port <= 62; port++) {
        CHECK(carry_out(g, interface(GROUP_ADD, port)) == 0);
        CHECK(carry_out(g, neighbour(GROUP_ADD, port)) == 0);
    }
    CHECK(carry_out(g, ingress(FLOW_ADD, 1)) == 0);
    CHECK(carry_out(g, vlan(FLOW_ADD, 2)) == 0);
    CHECK(carry_out(g, termination(FLOW_ADD, 3, ethertype)) == 0);
    for (unsigned n = 1; n <= ROUTES; n++)
        CHECK(carry_out(g, route(FLOW_ADD, 3 + n, ethertype, n, 1 + n % 62)) == 0);
}

/* ---- Numbers at random, the same in each run (splitmix64) */

static inline uint64_t random_number(uint64_t *state)
{
    uint64_t z = *state += 0x9e3779b97f4a7c15;
    z = (z ^ z >> 30) * 0xbf58476d1ce4e5b9;
    z = (z ^ z >> 27) * 0x94d049bb133111eb;
    return z ^ z >> 31;
}

#endif
