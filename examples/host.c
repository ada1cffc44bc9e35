/* A host in C: one device, a guest's memory with a hole, and a journal of all that the device carries out. `./run host` builds and runs it.
 *
 *     host [FOLDER]
 *
 * Journals go to FOLDER/journal.1 and so on, without one to a new folder. Of each is printed what `replay` must come to. What a host has to
 * see to is in docs/C-INTERFACE.md, "A host keeps a journal"; the guest is played by the last part of this file. */
#define _DEFAULT_SOURCE
#define _POSIX_C_SOURCE 200809L
#include <errno.h>
#include <fcntl.h>
#include <inttypes.h>
#include <stdio.h>
#include <stdlib.h>
#include <string.h>
#include <sys/mman.h>
#include <unistd.h>

#include "rocker.h"

/* Guest memory: RAM up to HOLE and from HIGH on. BATCH is how many commands may be done before their records are made safe. */
enum { HOLE = 0x300000, HIGH = 0x400000, SPACE = 0x500000, PORTS = 4, BATCH = 4096 };

static struct rocker device;
static uint8_t *memory, buffer[ROCKER_RECORD];
static unsigned interrupts;

static void die(const char *what)
{
    fprintf(stderr, "host: %s: %s\n", what, errno ? strerror(errno) : "failed");
    exit(1);
}

static void must(int holds, const char *what)
{
    if (!holds)
        die(what);
}

/* ---- Guest memory as one slice: the whole range is reserved, RAM is mapped where it belongs. A hole has pages of its own, which no guest
 * sees: they read 0, and take the two status bytes of a descriptor that a guest puts there. */

static void map(uint64_t from, uint64_t to, int flags)
{
    void *at = mmap(memory + from, to - from, PROT_READ | PROT_WRITE, MAP_FIXED | MAP_ANONYMOUS | flags, -1, 0);
    must(at != MAP_FAILED, "mmap");
}

static void make_memory(void)
{
    memory = mmap(NULL, SPACE, PROT_NONE, MAP_PRIVATE | MAP_ANONYMOUS | MAP_NORESERVE, -1, 0);
    must(memory != MAP_FAILED, "mmap");
    map(0, HOLE, MAP_SHARED);
    map(HOLE, HIGH, MAP_PRIVATE | MAP_NORESERVE);
    map(HIGH, SPACE, MAP_SHARED);
}

/* ---- The journal */

static const char *folder;
static struct journal {
    int file;
    unsigned number;
    off_t length;
    long lines, charged, flows, groups; /* counted from the records, to be held to what `replay` says */
} journal;

static const char *path_of(unsigned number)
{
    static char path[4096];
    must((size_t)snprintf(path, sizeof path, "%s/journal.%u", folder, number) < sizeof path, "the folder's name");
    return path;
}

static void append(const uint8_t *bytes, size_t length)
{
    while (length > 0) {
        ssize_t n = write(journal.file, bytes, length);
        must(n >= 0 || errno == EINTR, "write");
        if (n > 0) {
            bytes += n;
            length -= (size_t)n;
            journal.length += n;
        }
    }
}

static void make_safe(void)
{
    must(fsync(journal.file) == 0, "fsync");
}

/* Of a file that is new or has another name the folder has to be safe, too. */
static void make_names_safe(void)
{
    int directory = open(folder, O_RDONLY);
    must(directory >= 0 && fsync(directory) == 0 && close(directory) == 0, folder);
}

/* A new journal begins with its header. */
static void begin_journal(void)
{
    struct rocker_outcome o;
    journal = (struct journal){.number = journal.number + 1};
    journal.file = open(path_of(journal.number), O_WRONLY | O_CREAT | O_EXCL, 0644);
    must(journal.file >= 0, path_of(journal.number));
    must(rocker_header(&device, buffer, sizeof buffer, &o) == ROCKER_DONE, "rocker_header");
    append(buffer, o.bytes);
    make_safe();
    make_names_safe();
}

static void end_journal(void)
{
    make_safe();
    must(close(journal.file) == 0, "close");
    printf("journal %s: ports %d, lines %ld, charged %ld, flows %ld, groups %ld\n", path_of(journal.number), PORTS, journal.lines,
           journal.charged, journal.flows, journal.groups);
}

static uint64_t last_status;

/* The record in the buffer. What the guest of this file posts begins with CMD_TYPE: 3 and 5 add and delete a flow, 7 and 9 a group. */
static void record(const struct rocker_outcome *o)
{
    unsigned kind = o->bytes > 6 ? buffer[6 + 8] : 0;
    append(buffer, o->bytes);
    last_status = o->completed - ROCKER_COMPLETED;
    journal.lines++;
    if (o->completed == ROCKER_COMPLETED + ROCKER_STATUS_OK) {
        journal.charged++;
        journal.flows += (kind == 3) - (kind == 5);
        journal.groups += (kind == 7) - (kind == 9);
    }
}

/* ---- The device's calls */

/* Here a host injects the vector ROCKER_VECTOR. */
static void interrupt(void)
{
    interrupts++;
}

/* The slots that are posted. The guest's processors stand still from the first call of a batch until its records are safe: process has by
 * then written the status into guest memory. Only after that the interrupt is raised. Gives the answer that ended it. */
static uint32_t process_all(void)
{
    uint32_t answer = ROCKER_DONE;
    while (answer == ROCKER_DONE) {
        uint64_t raised = 0;
        for (unsigned k = 0; k < BATCH && answer == ROCKER_DONE; k++) {
            struct rocker_outcome o;
            answer = rocker_process(&device, memory, SPACE, buffer, sizeof buffer, &o);
            if (answer == ROCKER_DONE)
                record(&o);
            raised |= o.raised;
        }
        make_safe();
        if (raised)
            interrupt();
    }
    return answer;
}

/* Whatever ended it, the host waits for the guest's next write: nothing is tried again before. */
static void work(void)
{
    uint32_t answer = process_all();
    if (answer == ROCKER_CREDITS_FULL)
        printf("answer 4: the guest has %d credits to return; its slots wait\n", ROCKER_CREDITS);
    else if (answer == ROCKER_BAD_DESCRIPTOR)
        printf("answer 5: the ring is not in guest memory; its slots wait until the guest sets it up anew\n");
    else /* not 6: the buffer has room for every record */
        must(answer == ROCKER_IDLE, "rocker_process");
}

/* A guest's write has trapped. A reset ends the journal, and the next one begins before anything else is done. */
static uint32_t guest_writes(uint64_t offset, uint64_t width, uint64_t value)
{
    struct rocker_outcome o;
    uint32_t answer = rocker_write(&device, offset, width, value, &o);
    if (o.reset) {
        end_journal();
        begin_journal();
    }
    if (o.raised)
        interrupt();
    if (answer == ROCKER_DONE && (offset == ROCKER_REG_HEAD || offset == ROCKER_REG_CREDITS))
        work();
    return answer;
}

/* ---- A snapshot: the device as it is, guest memory and the journal's length, all of one moment. */

static struct {
    struct rocker device;
    struct journal journal;
    uint8_t *memory;
} saved;

static void save(void)
{
    make_safe();
    saved.device = device;
    saved.journal = journal;
    saved.memory = saved.memory ? saved.memory : malloc(SPACE);
    must(saved.memory != NULL, "malloc");
    memcpy(saved.memory, memory, SPACE);
}

/* The journal is cut back to the moment, or it would have records that the device has not. Journals that were begun since are put aside. */
static void restore(void)
{
    must(close(journal.file) == 0, "close");
    for (; journal.number > saved.journal.number; journal.number--) {
        char aside[4200];
        snprintf(aside, sizeof aside, "%s.aside", path_of(journal.number));
        must(rename(path_of(journal.number), aside) == 0, "rename");
    }
    device = saved.device;
    memcpy(memory, saved.memory, SPACE);
    journal = saved.journal;
    journal.file = open(path_of(journal.number), O_WRONLY);
    must(journal.file >= 0 && ftruncate(journal.file, journal.length) == 0, path_of(journal.number));
    must(lseek(journal.file, 0, SEEK_END) == journal.length, "lseek");
    make_safe();
    make_names_safe();
}

/* ---- Frames */

/* A router counts the TTL down and mends the checksum: 0 if the copy is at its end. */
static int count_down(uint8_t *ethertype)
{
    uint8_t *ip = ethertype + 2, *ttl = ethertype[0] == 0x08 ? ip + 8 : ip + 7;
    uint32_t sum = ((uint32_t)ip[10] << 8 | ip[11]) + 0x100;
    if (*ttl <= 1)
        return 0;
    --*ttl;
    sum += sum >> 16;
    if (ethertype[0] == 0x08) {
        ip[10] = (uint8_t)(sum >> 8);
        ip[11] = (uint8_t)sum;
    }
    return 1;
}

/* The copy that an output asks for, its length, 0 where none is sent: both MACs of a routed one, and the VLAN's tag written or removed. */
static size_t make_copy(uint8_t *to, const uint8_t *frame, size_t length, const uint16_t *output)
{
    static const uint16_t kept[6];
    size_t tag = frame[12] == 0x81 && frame[13] == 0 ? 4 : 0, at = 12;
    int routed = memcmp(output + ROCKER_SOURCE, kept, sizeof kept) != 0;
    memcpy(to, frame, 12);
    if (routed) {
        rocker_mac(output + ROCKER_DESTINATION, to);
        rocker_mac(output + ROCKER_SOURCE, to + 6);
    }
    if (!output[ROCKER_POP_VLAN]) { /* a tag that was there keeps its priority */
        to[at++] = 0x81;
        to[at++] = 0x00;
        to[at++] = (uint8_t)((tag ? frame[14] & 0xf0 : 0) | output[ROCKER_VLAN] >> 8);
        to[at++] = (uint8_t)output[ROCKER_VLAN];
    }
    memcpy(to + at, frame + 12 + tag, length - 12 - tag);
    return routed && !count_down(to + at) ? 0 : at + length - 12 - tag;
}

/* A frame in at port 1. Port 0 is the host itself: its copy goes to the host's own network, any other to what stands behind that port. */
static void send_in(const char *name, const uint8_t *frame, size_t length)
{
    static uint16_t list[ROCKER_LIST];
    static uint8_t copy[ROCKER_FRAME_MOST + 4];
    uint64_t outputs;
    must(rocker_frame(&device, 1, frame, length, list, ROCKER_LIST, &outputs) == ROCKER_DONE, "rocker_frame");
    printf("%s frame of %zu bytes, outputs %" PRIu64, name, length, outputs);
    for (const uint16_t *o = list; o < list + ROCKER_OUTPUT * outputs; o += ROCKER_OUTPUT) {
        size_t bytes = make_copy(copy, frame, length, o);
        printf(": %s %d, VLAN %d, %s, %zu bytes to %02x:..:%02x", o[ROCKER_PORT] ? "port" : "the host, port", o[ROCKER_PORT],
               o[ROCKER_VLAN], o[ROCKER_POP_VLAN] ? "tag off" : "tag on", bytes, copy[0], copy[5]);
    }
    putchar('\n');
}

/* ---- The guest: its driver sets a ring up, posts commands and returns credits. Descriptors lie below the hole, payloads above it. */

enum { RING = 0x100000, SLOTS = 16, FLOW_ADD = 3, GROUP_ADD = 7 };
static struct guest {
    uint64_t head;
    long consumed, ok; /* by the credits that it returned and by the status bytes that it saw: what it expects to be billed */
} guest;

static void little(uint8_t *to, uint64_t value, unsigned width)
{
    for (unsigned i = 0; i < width; i++)
        to[i] = (uint8_t)(value >> 8 * i);
}

/* One TLV: type, length of these 8 bytes and the value, pad, the value, filled up to 8. */
static uint8_t *tlv(uint8_t *at, uint32_t type, const void *value, size_t width)
{
    memset(at, 0, 8 + (width + 7) / 8 * 8);
    little(at, type, 4);
    little(at + 4, 8 + width, 2);
    memcpy(at + 8, value, width);
    return at + 8 + (width + 7) / 8 * 8;
}

static uint8_t *number(uint8_t *at, uint32_t type, uint64_t value, unsigned width)
{
    uint8_t bytes[8];
    little(bytes, value, width);
    return tlv(at, type, bytes, width);
}

/* A VLAN and an EtherType are big-endian. */
static uint8_t *big(uint8_t *at, uint32_t type, unsigned value)
{
    const uint8_t bytes[2] = {(uint8_t)(value >> 8), (uint8_t)value};
    return tlv(at, type, bytes, 2);
}

static void set_up(uint64_t base, uint64_t slots)
{
    guest_writes(ROCKER_REG_PORT_PHYS_ENABLE, 8, 1 << 1 | 1 << 2 | 1 << 3);
    guest_writes(ROCKER_REG_BASE_ADDR, 8, base);
    guest_writes(ROCKER_REG_SIZE, 4, slots);
    guest.head = 0;
}

static void return_credits(void)
{
    uint64_t credits;
    must(rocker_read(&device, ROCKER_REG_CREDITS, 4, &credits) == ROCKER_DONE, "CREDITS");
    guest.consumed += (long)credits;
    if (credits > 0)
        guest_writes(ROCKER_REG_CREDITS, 4, credits);
}

static void post_at(uint64_t place, uint64_t length)
{
    uint8_t *descriptor = memory + RING + ROCKER_DESC_BYTES * guest.head;
    memset(descriptor, 0, ROCKER_DESC_BYTES);
    little(descriptor + ROCKER_DESC_BUF_ADDR, place, 8);
    little(descriptor + ROCKER_DESC_BUF_SIZE, length, 2);
    little(descriptor + ROCKER_DESC_TLV_SIZE, length, 2);
    guest.head = (guest.head + 1) % SLOTS;
    guest_writes(ROCKER_REG_HEAD, 4, guest.head);
    guest.ok += memcmp(descriptor + ROCKER_DESC_COMP_ERR, "\x00\x80", 2) == 0;
}

static uint8_t fields[256];

/* A command of the fields up to `end`: they become CMD_INFO. */
static void post(unsigned command, const uint8_t *end)
{
    uint8_t *payload = memory + HIGH + 512 * guest.head, *last = tlv(number(payload, 1, command, 2), 2, fields, (size_t)(end - fields));
    post_at((uint64_t)(payload - memory), (uint64_t)(last - payload));
    return_credits();
}

static uint8_t *flow(unsigned table, uint64_t cookie, unsigned go_to)
{
    uint8_t *at = number(number(number(fields, 1, table, 2), 2, 0, 4), 5, cookie, 8); /* TBL, PRIORITY, COOKIE */
    return number(at, 9, go_to, 2);                                                   /* GOTO_TBL */
}

/* The group of one port on a VLAN: GROUP_ID, OUT_PPORT, POP_VLAN. */
static void post_group(unsigned vlan, unsigned port, unsigned pop)
{
    post(GROUP_ADD, number(number(number(fields, 10, vlan << 16 | port, 4), 8, port, 4), 43, pop, 1));
}

static const uint8_t station[6] = {2, 0, 0, 0, 0, 7}, us[6] = {2, 0, 0, 0, 0, 2};
static const uint8_t router[6] = {2, 0, 0, 0, 0, 1}, neighbour[6] = {2, 0, 0, 0, 0, 9};

/* Frames from port 1 without a tag get VLAN 100; those for a station leave by port 2 without their tag, those for us go to the host. */
static void post_bridge(void)
{
    post(FLOW_ADD, big(big(number(flow(10, 1, 20), 6, 1, 4), 14, 0), 19, 100)); /* IN_PPORT, VLAN_ID, NEW_VLAN_ID */
    post_group(100, 2, 1);
    post_group(100, 0, 0);
    post(FLOW_ADD, number(tlv(big(flow(50, 2, 60), 14, 100), 24, station, 6), 10, 100 << 16 | 2, 4)); /* .., DST_MAC, GROUP_ID */
    post(FLOW_ADD, number(tlv(big(flow(50, 3, 60), 14, 100), 24, us, 6), 10, 100 << 16 | 0, 4));
}

/* Frames for the router's MAC are routed: 192.0.2.0/24 is VLAN 200, on port 3, by a neighbour. */
static void post_route(void)
{
    static const uint8_t network[4] = {192, 0, 2, 0}, mask[4] = {255, 255, 255, 0};
    const uint32_t next_hop = 2u << 28 | 1;
    uint8_t *at;
    post_group(200, 3, 0);
    at = big(number(number(fields, 10, next_hop, 4), 11, 200 << 16 | 3, 4), 14, 200); /* GROUP_ID, GROUP_ID_LOWER, VLAN_ID */
    post(GROUP_ADD, tlv(tlv(at, 24, neighbour, 6), 26, router, 6));                   /* DST_MAC, SRC_MAC */
    at = big(tlv(big(number(flow(20, 4, 30), 6, 1, 4), 14, 100), 24, router, 6), 23, 0x0800); /* .., ETHERTYPE */
    post(FLOW_ADD, at);
    at = tlv(tlv(big(flow(30, 5, 60), 23, 0x0800), 36, network, 4), 37, mask, 4);     /* .., DST_IP and its mask */
    post(FLOW_ADD, number(at, 10, next_hop, 4));
}

static void send_frames(void)
{
    uint8_t frame[64] = {0};
    memcpy(frame, station, 6);
    send_in("bridged", frame, sizeof frame);
    memcpy(frame, us, 6);
    send_in("bridged", frame, sizeof frame);
    memcpy(frame, router, 6);
    memcpy(frame + 12, "\x08\x00", 2); /* IPv4, TTL 64, for 192.0.2.7 */
    frame[14 + 8] = 64;
    memcpy(frame + 14 + 16, "\xc0\x00\x02\x07", 4);
    send_in("routed", frame, sizeof frame);
}

static void said(const char *what)
{
    printf("%s: status %" PRIu64 ", in the journal, not charged\n", what, last_status);
}

/* What goes wrong, and harms nobody but the guest. */
static void mishaps(void)
{
    static struct rocker copy;
    struct rocker_outcome o;
    post_group(100, 2, 1);
    said("a group that is there");
    post_at(HOLE, 64);
    said("a payload in the hole");
    set_up(HOLE, SLOTS);
    guest_writes(ROCKER_REG_HEAD, 4, 1);
    said("a descriptor in the hole");
    set_up(RING, SLOTS);
    return_credits();
    copy = device;
    must(rocker_write(&copy, ROCKER_REG_HEAD, 4, (guest.head + 1) % SLOTS, &o) == ROCKER_DONE, "a copy's HEAD");
    must(rocker_process(&copy, memory, SPACE, buffer, 5, &o) == ROCKER_SHORT_BUFFER, "a short buffer");
    printf("answer 6: a buffer of 5 bytes has no room for a record, and one of %d always has\n", ROCKER_RECORD);
    set_up(SPACE, SLOTS); /* a ring beyond memory */
    guest_writes(ROCKER_REG_HEAD, 4, 1);
    set_up(RING, SLOTS);
}

/* A snapshot, a command, and the moment of before again: the guest posts the same once more, and the journal has it once. */
static void go_back(void)
{
    struct guest then = guest; /* a guest's own state is saved with its memory */
    long lines;
    save();
    post_group(100, 1, 0);
    lines = journal.lines;
    restore();
    guest = then;
    printf("restored: the journal is cut back from %ld lines to %ld\n", lines, journal.lines);
    post_group(100, 1, 0);
    must(journal.lines == lines && last_status == ROCKER_STATUS_OK, "the same once more");
}

/* Before a journal ends: the guest has seen consumed what has a line, and completed OK what is charged. */
static void agree(void)
{
    return_credits();
    must(guest.consumed == journal.lines && guest.ok == journal.charged, "guest and journal agree");
    guest.consumed = guest.ok = 0;
}

/* A guest that returns no credits, in a ring of all slots that there can be, with nothing in them: each is EINVAL, none is charged. */
static void credits_full(void)
{
    memset(memory + RING, 0, 65536 * ROCKER_DESC_BYTES);
    set_up(RING, 65536);
    guest_writes(ROCKER_REG_HEAD, 4, 65535);
    guest_writes(ROCKER_REG_HEAD, 4, 10);
    return_credits(); /* and the ten that waited are processed */
    return_credits();
    set_up(RING, SLOTS);
}

int main(int count, char **words)
{
    static char new_folder[] = "/tmp/rocker-host-XXXXXX";
    folder = count > 1 ? words[1] : mkdtemp(new_folder);
    must(folder != NULL, "mkdtemp");
    must(rocker_size() == sizeof device, "header and archive disagree");
    make_memory();
    must(rocker_fresh(&device, PORTS, 1) == ROCKER_DONE, "rocker_fresh");
    for (uint64_t port = 1; port <= 3; port++)
        must(rocker_link(&device, port, 1) == ROCKER_DONE, "rocker_link");
    begin_journal();

    set_up(RING, SLOTS);
    post_bridge();
    post_route();
    send_frames();
    mishaps();
    go_back();
    agree();
    guest_writes(ROCKER_REG_CONTROL, 4, ROCKER_RESET); /* the first journal ends, the second begins */
    set_up(RING, SLOTS);
    post_bridge();
    credits_full();
    post_route();
    send_frames();
    agree();
    end_journal();
    printf("interrupts: %u\n", interrupts);
    return 0;
}
