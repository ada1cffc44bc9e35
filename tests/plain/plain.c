/* The device beside the plain engine, "an unordered store with a full scan" (request 2026-05): the same flow commands at random on both, and
 * after each the statuses, the flows by cookie, the device's order, and for frames at random the ways out and the outputs. A difference ends
 * with 1. What was met is counted, and a run that met too little ends with 1 too.
 *   plain [COMMANDS]: so many in each of four rounds. */
#include "guest.h"

/* libplain.a (crates/plain): the plain engine over rows and their count, and the device's own search. Headers are MAC, two words of an address,
 * VLAN, EtherType and whether the address is there; a way out is whether there is one, its VLAN and its group. */
uint32_t plain_add(uint32_t rows[ROCKER_FLOWS][22], size_t *count, const uint32_t row[22]);
uint32_t plain_change(uint32_t rows[ROCKER_FLOWS][22], size_t *count, const uint32_t row[22]);
uint32_t plain_del(uint32_t rows[ROCKER_FLOWS][22], size_t *count, uint64_t cookie);
void plain_way(uint32_t rows[ROCKER_FLOWS][22], size_t count, uint32_t port, const uint64_t headers[6], uint32_t out[3]);
void ordered_way(uint32_t rows[ROCKER_FLOWS][22], size_t count, const uint8_t order[ROCKER_FLOWS], const uint64_t firsts[4], uint32_t port,
                 const uint64_t headers[6], uint32_t out[3]);

enum { OK = 0, ENOENT_ = 2, ENOMEM_ = 12, EEXIST_ = 17, STATUSES = 18 };
enum { COOKIE = 0, PRIORITY = 4, TABLE = 10, PREFIX = 17, ROW = 22 };
/* Groups: of each VLAN the ports from FIRST on and floods to two of them; neighbours on any VLAN. What flows name goes one further. */
enum { VLANS = 3, FIRST = 4, PORTS = 8, FLOODS = 3, NEIGHBOURS = 6, INGRESS = 3, FRAMES = 8 };

static struct guest guest;
static uint32_t rows[ROCKER_FLOWS][ROW];
static size_t count;
static uint64_t state = 20260505;
static uint64_t by_status[3][STATUSES], twice_when_full, moved, to_another, frames, dropped, nowhere, bridged, flooded, routed, most;

static unsigned below(unsigned n)
{
    return (unsigned)(random_number(&state) % n);
}

static unsigned one_of(const unsigned *numbers, unsigned n)
{
    return numbers[below(n)];
}
#define ONE_OF(numbers) one_of(numbers, sizeof numbers / sizeof *numbers)

static uint64_t cookie_in(const uint32_t row[ROW])
{
    return row[COOKIE] | (uint64_t)row[COOKIE + 1] << 32;
}

/* ---- What flows and frames have: few of each, so that they meet */

/* Cookies of one word and of two. */
static uint64_t a_cookie(unsigned cookies)
{
    uint64_t k = below(cookies);
    return k % 3 == 0 ? k << 31 : k;
}

/* Stations, the router, and of the groups two. */
static void a_mac(uint8_t mac[6])
{
    unsigned n = below(6);
    station(mac, n);
    if (n == 3)
        memcpy(mac, router, 6);
    if (n > 3)
        mac[0] = 1;
}

static uint64_t mac_number(const uint8_t mac[6])
{
    uint64_t number = 0;
    for (unsigned i = 6; i-- > 0;)
        number = number << 8 | mac[i];
    return number;
}

/* Addresses that part at different bits. */
static void an_address(uint8_t address[16], unsigned ethertype)
{
    unsigned length = address_length(ethertype);
    memset(address, 0, 16);
    address[0] = ethertype == IPV6 ? 0xfd : 10;
    for (unsigned i = 1; i < length; i += 1 + below(4))
        address[i] = (uint8_t)(below(2) << below(8));
}

/* The words of an address, which stands in their upper bits. */
static void address_words(uint64_t words[2], const uint8_t address[16])
{
    words[0] = words[1] = 0;
    for (unsigned i = 0; i < 16; i++)
        words[i / 8] = words[i / 8] << 8 | address[i];
}

static uint32_t port_id(unsigned vlan, unsigned port)
{
    return (uint32_t)vlan << 16 | port;
}

static uint32_t many_id(unsigned vlan, unsigned index)
{
    return (uint32_t)4 << 28 | (uint32_t)vlan << 16 | index;
}

/* ---- Groups */

static void add_groups(void)
{
    for (unsigned vlan = 1; vlan <= VLANS; vlan++) {
        for (unsigned port = FIRST; port < FIRST + PORTS; port++) {
            struct payload p = {0};
            number(&p, 10, port_id(vlan, port), 4);
            number(&p, 8, port, 4);
            number(&p, 43, 1, 1);
            CHECK(carry_out(&guest, command(GROUP_ADD, &p)) == OK);
        }
        for (unsigned index = 1; index <= FLOODS; index++) {
            struct payload p = {0}, members = {0};
            number(&members, 1, port_id(vlan, FIRST + index), 4);
            number(&members, 2, port_id(vlan, FIRST + FLOODS + index), 4);
            number(&p, 10, many_id(vlan, index), 4);
            number(&p, 12, 2, 2);
            tlv(&p, 13, members.bytes, members.length);
            CHECK(carry_out(&guest, command(GROUP_ADD, &p)) == OK);
        }
    }
    for (unsigned n = 1; n <= NEIGHBOURS; n++) {
        struct payload p = {0};
        uint8_t mac[6];
        neighbour_mac(mac, n);
        number(&p, 10, neighbour_id(n), 4);
        number(&p, 11, port_id(1 + n % VLANS, FIRST + n), 4);
        big(&p, 14, 1 + n % VLANS);
        tlv(&p, 24, mac, 6);
        tlv(&p, 26, router, 6);
        CHECK(carry_out(&guest, command(GROUP_ADD, &p)) == OK);
    }
}

/* ---- Flows: the fields of a command, and the row of 22 words that holds the flow */

static void match_port(struct payload *p, uint32_t row[ROW])
{
    static const unsigned masks[] = {0, 1, 2, 3, UINT32_MAX};
    row[7] = below(INGRESS + 1);
    row[8] = ONE_OF(masks);
    number(p, 6, row[7], 4);
    number(p, 7, row[8], 4);
}

static void match_vlan(struct payload *p, uint32_t row[ROW])
{
    row[7] = 1 + below(INGRESS);
    row[12] = below(VLANS + 1);
    number(p, 6, row[7], 4);
    big(p, 14, row[12]);
    if (row[12] == 0) {
        row[13] = 1 + below(VLANS);
        big(p, 19, row[13]);
    }
}

static void match_mac(struct payload *p, uint32_t row[ROW], const uint8_t mac[6])
{
    uint64_t n = mac_number(mac);
    row[2] = (uint32_t)n;
    row[3] = (uint32_t)(n >> 32);
    row[14] = 1;
    tlv(p, 24, mac, 6);
}

static void match_router(struct payload *p, uint32_t row[ROW])
{
    row[7] = 1 + below(INGRESS);
    row[12] = 1 + below(VLANS);
    row[16] = below(2) ? IPV4 : IPV6;
    number(p, 6, row[7], 4);
    big(p, 14, row[12]);
    big(p, 23, row[16]);
    match_mac(p, row, router);
}

static void name_group(struct payload *p, uint32_t row[ROW], uint32_t id)
{
    row[9] = id;
    row[15] = 1;
    number(p, 10, id, 4);
}

static void match_network(struct payload *p, uint32_t row[ROW])
{
    static const unsigned short_ones[] = {0, 8, 9, 15, 16, 24, 31, 32}, long_ones[] = {0, 8, 16, 17, 63, 64, 65, 127, 128};
    uint8_t address[16], mask[16] = {0};
    uint64_t words[2];
    row[16] = below(2) ? IPV4 : IPV6;
    row[PREFIX] = row[16] == IPV6 ? ONE_OF(long_ones) : ONE_OF(short_ones);
    an_address(address, row[16]);
    for (unsigned i = 0; i < row[PREFIX]; i++)
        mask[i / 8] |= (uint8_t)(0x80 >> i % 8);
    address_words(words, address);
    for (unsigned i = 0; i < 4; i++)
        row[18 + i] = (uint32_t)(words[i / 2] >> 32 * (i % 2));
    big(p, 23, row[16]);
    tlv(p, row[16] == IPV6 ? 38 : 36, address, address_length(row[16]));
    tlv(p, row[16] == IPV6 ? 39 : 37, mask, address_length(row[16]));
    if (below(8) > 0)
        name_group(p, row, neighbour_id(1 + below(NEIGHBOURS + 1)));
}

/* A station goes to a port, a group of them or any to a flood. */
static void match_station(struct payload *p, uint32_t row[ROW])
{
    uint8_t mac[6] = {1};
    unsigned vlan = row[12] = 1 + below(VLANS);
    big(p, 14, vlan);
    if (below(4) > 0) {
        a_mac(mac);
        match_mac(p, row, mac);
    }
    if (below(8) > 0)
        name_group(p, row, mac[0] % 2 == 0 ? port_id(vlan, FIRST + below(PORTS + 1)) : many_id(vlan, 1 + below(FLOODS + 1)));
}

static struct payload a_flow(unsigned kind, uint64_t cookie, uint32_t row[ROW])
{
    static const unsigned tables[] = {0, 10, 20, 30, 50}, next[] = {10, 20, 30, 60, 60};
    static void (*const matching[])(struct payload *, uint32_t *) = {match_port, match_vlan, match_router, match_network, match_station};
    struct payload p = {0};
    unsigned t = below(5);
    memset(row, 0, ROW * sizeof *row);
    row[COOKIE] = (uint32_t)cookie;
    row[COOKIE + 1] = (uint32_t)(cookie >> 32);
    row[PRIORITY] = below(3);
    row[5] = below(2);
    row[6] = below(2);
    row[TABLE] = tables[t];
    row[11] = tables[t] != 20 && below(8) == 0 ? 0 : next[t];
    number(&p, 1, row[TABLE], 2);
    number(&p, 2, row[PRIORITY], 4);
    number(&p, 3, row[5], 4);
    number(&p, 4, row[6], 4);
    number(&p, 5, cookie, 8);
    number(&p, 9, row[11], 2);
    matching[t](&p, row);
    return command(kind, &p);
}

/* ---- What both have to agree on */

static uint64_t live(void)
{
    return guest.device.registers[14];
}

/* Of two flows the one that comes first: table, longer prefix, higher priority, lower cookie. */
static int precedes(const uint32_t a[ROW], const uint32_t b[ROW])
{
    if (a[TABLE] != b[TABLE])
        return a[TABLE] < b[TABLE];
    if (a[PREFIX] != b[PREFIX])
        return a[PREFIX] > b[PREFIX];
    if (a[PRIORITY] != b[PRIORITY])
        return a[PRIORITY] > b[PRIORITY];
    return cookie_in(a) < cookie_in(b);
}

/* The same flows, by cookie; those of the device rise. */
static void compare_flows(void)
{
    CHECK(live() == count);
    for (size_t i = 1; i < count; i++)
        CHECK(cookie_in(guest.device.flows[i - 1]) < cookie_in(guest.device.flows[i]));
    for (size_t i = 0; i < count; i++) {
        size_t low = 0, high = count;
        while (low < high) {
            size_t half = (low + high) / 2;
            if (cookie_in(guest.device.flows[half]) < cookie_in(rows[i]))
                low = half + 1;
            else
                high = half;
        }
        CHECK(low < count && memcmp(guest.device.flows[low], rows[i], sizeof rows[i]) == 0);
    }
}

/* Each precedes the next, so all of them stand in it; and the tables begin where it says. */
static void check_order(void)
{
    static const unsigned tables[] = {10, 20, 30, 50};
    uint64_t begins[4] = {0};
    for (size_t i = 0; i < count; i++) {
        const uint32_t *row = guest.device.flows[guest.device.order[i]];
        CHECK(guest.device.order[i] < count);
        CHECK(i == 0 || precedes(guest.device.flows[guest.device.order[i - 1]], row));
        for (unsigned t = 0; t < 4; t++)
            begins[t] += row[TABLE] < tables[t];
    }
    CHECK(memcmp(begins, guest.device.registers + 16, sizeof begins) == 0);
}

/* The outputs of a way out, by the groups as add_groups made them. */
static void check_outputs(const uint32_t way[3], const uint16_t *list, uint64_t outputs)
{
    unsigned low = way[2] & 0xffff, vlan = way[1], ports[2] = {0, 0}, expected = 0;
    static const uint8_t zeros[6];
    uint8_t source[6], destination[6], mac[6];
    if (!way[0]) {
        dropped++;
    } else if (way[2] >> 28 == 0 && low < FIRST + PORTS) {
        ports[expected++] = low;
        bridged++;
    } else if (way[2] >> 28 == 4 && low <= FLOODS) {
        ports[expected++] = FIRST + low;
        ports[expected++] = FIRST + FLOODS + low;
        flooded++;
    } else if (way[2] >> 28 == 2 && low <= NEIGHBOURS) {
        ports[expected++] = FIRST + low;
        vlan = 1 + low % VLANS;
        routed++;
    } else {
        nowhere++;
    }
    CHECK(outputs == expected);
    for (unsigned k = 0; k < expected; k++) {
        const uint16_t *output = list + ROCKER_OUTPUT * k;
        CHECK(output[ROCKER_PORT] == ports[k] && output[ROCKER_VLAN] == vlan && output[ROCKER_POP_VLAN] == 1);
        rocker_mac(output + ROCKER_SOURCE, source);
        rocker_mac(output + ROCKER_DESTINATION, destination);
        neighbour_mac(mac, low);
        CHECK(memcmp(source, way[2] >> 28 == 2 ? router : zeros, 6) == 0);
        CHECK(memcmp(destination, way[2] >> 28 == 2 ? mac : zeros, 6) == 0);
    }
}

static void a_frame(void)
{
    static const unsigned types[] = {IPV4, IPV6, 0x0806};
    static const uint8_t from[6] = {2, 1, 1, 1, 1, 1};
    uint8_t frame[64] = {0}, address[16];
    uint16_t list[ROCKER_LIST];
    uint64_t headers[6] = {0}, outputs;
    uint32_t way[3], search[3], port = 1 + below(INGRESS);
    unsigned tagged = below(4) > 0, ethertype = ONE_OF(types), after = tagged ? 18 : 14;
    size_t length = below(8) > 0 ? sizeof frame : after + below(44);
    a_mac(frame);
    memcpy(frame + 6, from, 6);
    headers[0] = mac_number(frame);
    headers[3] = tagged ? below(VLANS + 2) : 0;
    headers[4] = ethertype;
    headers[5] = length >= after + (ethertype == IPV6 ? 40u : 20u);
    if (tagged) {
        frame[12] = 0x81;
        frame[14] = (uint8_t)(below(16) << 4);
        frame[15] = (uint8_t)headers[3];
    }
    frame[after - 2] = (uint8_t)(ethertype >> 8);
    frame[after - 1] = (uint8_t)ethertype;
    an_address(address, ethertype);
    memcpy(frame + after + (ethertype == IPV6 ? 24 : 16), address, address_length(ethertype));
    address_words(headers + 1, address);
    plain_way(rows, count, port, headers, way);
    ordered_way(guest.device.flows, live(), guest.device.order, guest.device.registers + 16, port, headers, search);
    CHECK(memcmp(way, search, sizeof way) == 0);
    CHECK(rocker_frame(&guest.device, port, frame, length, list, ROCKER_LIST, &outputs) == 0);
    check_outputs(way, list, outputs);
    frames++;
}

/* ---- Commands */

static uint32_t table_of(uint64_t cookie)
{
    for (size_t i = 0; i < count; i++) {
        if (cookie_in(rows[i]) == cookie)
            return rows[i][TABLE];
    }
    return 1;
}

static void a_command(unsigned cookies)
{
    uint32_t row[ROW], before = 1;
    uint8_t order[ROCKER_FLOWS];
    uint64_t cookie = a_cookie(cookies);
    unsigned kind = below(8), told, expected;
    struct rocker kept = guest.device;
    struct payload p;
    memcpy(order, guest.device.order, sizeof order);
    if (kind < 4) {
        p = a_flow(FLOW_ADD, cookie, row);
        expected = plain_add(rows, &count, row);
        kind = 0;
    } else if (kind < 7) {
        before = table_of(cookie);
        p = a_flow(FLOW_MOD, cookie, row);
        expected = plain_change(rows, &count, row);
        kind = 1;
    } else {
        p = flow_del(cookie);
        expected = plain_del(rows, &count, cookie);
        kind = 2;
    }
    told = carry_out(&guest, p);
    CHECK(told == expected);
    CHECK(told == OK || told == ENOENT_ || told == ENOMEM_ || told == EEXIST_);
    by_status[kind][told]++;
    twice_when_full += told == EEXIST_ && count == ROCKER_FLOWS;
    if (told != OK) {
        CHECK(memcmp(kept.flows, guest.device.flows, sizeof kept.flows) == 0 && memcmp(kept.order, guest.device.order, sizeof kept.order) == 0);
    } else if (kind == 1) {
        moved += memcmp(order, guest.device.order, count) != 0;
        to_another += before != row[TABLE];
    }
    most = count > most ? count : most;
}

static void a_round(unsigned cookies, unsigned commands)
{
    start(&guest);
    add_groups();
    count = 0;
    memset(rows, 0xff, sizeof rows);
    for (unsigned k = 0; k < commands; k++) {
        a_command(cookies);
        compare_flows();
        check_order();
        for (unsigned n = 0; n < FRAMES; n++)
            a_frame();
    }
}

int main(int words, char **word)
{
    unsigned commands = words > 1 ? (unsigned)strtoul(word[1], NULL, 10) : 10000;
    CHECK(rocker_size() == sizeof(struct rocker));
    a_round(6, commands);
    a_round(40, commands);
    a_round(300, commands);
    a_round(900, commands);
    printf("%u commands on both: adds %" PRIu64 " OK, %" PRIu64 " EEXIST (%" PRIu64 " in full tables), %" PRIu64 " ENOMEM\n", 4 * commands,
           by_status[0][OK], by_status[0][EEXIST_], twice_when_full, by_status[0][ENOMEM_]);
    printf("mods %" PRIu64 " OK, %" PRIu64 " ENOENT; dels %" PRIu64 " OK, %" PRIu64 " ENOENT; at most %" PRIu64 " flows\n", by_status[1][OK],
           by_status[1][ENOENT_], by_status[2][OK], by_status[2][ENOENT_], most);
    printf("mods that moved in the order %" PRIu64 ", to another table %" PRIu64 "\n", moved, to_another);
    printf("frames %" PRIu64 ": dropped %" PRIu64 ", bridged %" PRIu64 ", flooded %" PRIu64 ", routed %" PRIu64
           ", to a group that is not there %" PRIu64 "\n", frames, dropped, bridged, flooded, routed, nowhere);
    CHECK(by_status[0][OK] && by_status[0][EEXIST_] && twice_when_full && by_status[0][ENOMEM_]);
    CHECK(by_status[1][OK] && by_status[1][ENOENT_] && by_status[2][OK] && by_status[2][ENOENT_] && most == ROCKER_FLOWS);
    CHECK(moved && to_another && bridged && flooded && routed && nowhere);
    return 0;
}
