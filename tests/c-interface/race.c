/* A guest that keeps running: while one thread processes slot after slot, another writes descriptors and payloads in guest memory as fast
 * as it can. What a call takes from guest memory it must take once: then each record is of one command, whatever became of it in memory,
 * and the journal replays.
 *
 *     race FOLDER CALLS SECONDS OVERLAPS
 *
 * ends after so many process calls or seconds, whichever comes first; during at least OVERLAPS of the calls the guest must have written.
 * Each journal goes to FOLDER/journal.N, and beside it, to FOLDER/expected.N, the five lines that `replay` must print of it. */
#define _POSIX_C_SOURCE 200809L
#include <pthread.h>
#include <stdatomic.h>
#include <stdbool.h>
#include <time.h>

#include "guest.h"

enum { SLOTS = 8, PLACES = 4, TEMPLATES = 21, LENGTH = 176, RECORDS = 20000, BEYOND = 64 };

static struct rocker device;
static _Alignas(8) uint8_t memory[MEMORY];
static uint8_t buffer[6 + LONGEST + BEYOND];
static struct payload templates[TEMPLATES];
static atomic_bool stop;
static atomic_ulong changes;
static unsigned long overlaps;

static size_t place(uint64_t k)
{
    return PLACE + 2 * LONGEST * (k % PLACES);
}

static void make_templates(void)
{
    static const uint8_t zeros[LENGTH];
    unsigned n = 0;
    for (unsigned cookie = 1; cookie <= 3; cookie++) {
        templates[n++] = ingress(FLOW_ADD, cookie);
        templates[n++] = ingress(FLOW_MOD, cookie);
        templates[n++] = flow_del(cookie);
    }
    templates[n++] = interface(GROUP_ADD, 1);
    templates[n++] = interface(GROUP_ADD, 2);
    templates[n++] = group_del(interface_id(2));
    templates[n++] = flood(GROUP_ADD, 1, 2);
    templates[n++] = flood(GROUP_MOD, 1, 1);
    templates[n++] = group_del(flood_id(1));
    templates[n++] = route(FLOW_ADD, 2, IPV4, 1, 1);
    templates[n++] = route(FLOW_MOD, 3, IPV6, 2, 1);
    templates[n++] = termination(FLOW_ADD, 1, IPV6);
    templates[n++] = neighbour(GROUP_ADD, 1);
    templates[n++] = group_del(neighbour_id(1));
    templates[n++] = command(99, &(struct payload){0});
    CHECK(n == TEMPLATES);
    /* all of one length, by a TLV that no command asks for */
    for (n = 0; n < TEMPLATES; n++)
        tlv(&templates[n], 99, zeros, LENGTH - 8 - templates[n].length);
}

/* One write of the guest: a payload as a rule, else a byte in one, or a field of a descriptor. It leaves the two status bytes alone. */
static void change(uint64_t *seed)
{
    static const uint16_t sizes[8] = {0, 8, LENGTH - 8, LENGTH + 8, LONGEST, LONGEST + 1, 65535, LENGTH};
    uint64_t r = random_number(seed);
    volatile uint8_t *payload = memory + place(r >> 8), *descriptor = memory + 32 * ((r >> 16) % SLOTS);
    const struct payload *template = &templates[(r >> 24) % TEMPLATES];
    switch (r % 64) {
    default:
        for (size_t i = 0; i < LENGTH; i++)
            payload[i] = template->bytes[i];
        break;
    case 0:
        payload[(r >> 24) % LENGTH] = (uint8_t)(r >> 32);
        break;
    case 1:
        *(volatile uint64_t *)descriptor = (r & 1 << 24) ? 4 : UINT64_C(1) << (r >> 32) % 64;
        break;
    case 2:
        *(volatile uint16_t *)(descriptor + 16) = sizes[(r >> 24) % 8];
        break;
    case 3:
        *(volatile uint16_t *)(descriptor + 18) = sizes[(r >> 24) % 8];
        break;
    case 4: case 5: case 6: case 7: case 8: case 9: case 10: case 11:
        *(volatile uint64_t *)descriptor = place(r >> 24);
        *(volatile uint16_t *)(descriptor + 16) = LONGEST;
        *(volatile uint16_t *)(descriptor + 18) = LENGTH;
        break;
    }
}

static void *keep_changing(void *unused)
{
    uint64_t seed = 1;
    (void)unused;
    while (!atomic_load_explicit(&stop, memory_order_relaxed)) {
        change(&seed);
        atomic_fetch_add_explicit(&changes, 1, memory_order_relaxed);
    }
    return NULL;
}

/* ---- The host */

static struct {
    unsigned long calls, ok, during, statuses[256];
} seen;

static unsigned two(const uint8_t *at)
{
    return at[0] | at[1] << 8;
}

static void set(uint64_t offset, uint64_t width, uint64_t value)
{
    struct rocker_outcome o;
    CHECK(rocker_write(&device, offset, width, value, &o) == 0 && o.reset == 0);
}

static FILE *opened(const char *folder, const char *name, unsigned n)
{
    char path[4096];
    FILE *file;
    CHECK((size_t)snprintf(path, sizeof path, "%s/%s.%u", folder, name, n) < sizeof path);
    file = fopen(path, "wb");
    CHECK(file != NULL);
    return file;
}

/* Waits until the guest is seen to write, but not for ever: the machine may be busy, or have one processor. */
static void await_guest(void)
{
    unsigned long before = atomic_load(&changes);
    for (unsigned k = 0; overlaps && k < 20000 && atomic_load_explicit(&changes, memory_order_relaxed) == before; k++)
        ;
}

/* One slot: the completion is that of the record, and stands in the slot's descriptor; nothing is written behind the record. */
static size_t process(unsigned slot, bool *ok)
{
    struct rocker_outcome o;
    unsigned long before;
    unsigned completed;
    memset(buffer + 6 + LONGEST, 0x77, BEYOND);
    await_guest();
    before = atomic_load(&changes);
    CHECK(rocker_process(&device, memory, sizeof memory, buffer, 6 + LONGEST, &o) == 0);
    seen.during += atomic_load(&changes) != before;
    completed = two(buffer);
    CHECK(o.completed == completed && completed == two(memory + 32 * slot + 30));
    CHECK(o.bytes >= 6 && o.bytes <= 6 + LONGEST && two(buffer + 2) == o.bytes - 6 && two(buffer + 4) == slot);
    CHECK(o.raised == 1 && o.value == 0 && o.outputs == 0 && o.reset == 0);
    for (unsigned i = 0; i < BEYOND; i++)
        CHECK(buffer[6 + LONGEST + i] == 0x77);
    CHECK(completed >= 0x8000 && completed < 0x8000 + 256);
    *ok = completed == 0x8000;
    seen.calls++;
    seen.ok += *ok;
    seen.statuses[completed - 0x8000]++;
    return (size_t)o.bytes;
}

/* One journal, of a device of its own. */
static void journal(const char *folder, unsigned n, unsigned long records, time_t end)
{
    FILE *file = opened(folder, "journal", n), *expected = opened(folder, "expected", n);
    struct rocker_outcome o;
    unsigned long made = 0, charged = 0;
    unsigned head = 0;
    bool ok;
    CHECK(rocker_fresh(&device, 4, 1) == 0);
    set(BASE_ADDR, 8, 0);
    set(SIZE, 4, SLOTS);
    CHECK(rocker_header(&device, buffer, sizeof buffer, &o) == 0 && fwrite(buffer, 1, o.bytes, file) == o.bytes);
    for (; made < records && (made % 16 || time(NULL) < end); made++) {
        size_t length;
        set(HEAD, 4, (head + 1) % SLOTS);
        length = process(head, &ok);
        charged += ok;
        CHECK(fwrite(buffer, 1, length, file) == length);
        set(CREDITS, 4, 1);
        head = (head + 1) % SLOTS;
    }
    /* Words 14 and 15 of the registers count what is live. */
    fprintf(expected, "ports 4\nlines %lu\ncharged %lu\nflows %" PRIu64 "\ngroups %" PRIu64 "\n", made, charged, device.registers[14],
            device.registers[15]);
    CHECK(fclose(file) == 0 && fclose(expected) == 0);
}

int main(int count, char **words)
{
    unsigned journals = 0;
    unsigned long calls;
    time_t end;
    pthread_t guest;
    CHECK(count == 5);
    calls = strtoul(words[2], NULL, 10);
    end = time(NULL) + (time_t)strtoul(words[3], NULL, 10);
    overlaps = strtoul(words[4], NULL, 10);
    make_templates();
    for (unsigned slot = 0; slot < SLOTS; slot++)
        describe(memory + 32 * slot, place(slot), LENGTH);
    CHECK(pthread_create(&guest, NULL, keep_changing, NULL) == 0);
    while (seen.calls < calls && time(NULL) < end) {
        unsigned long left = calls - seen.calls;
        journal(words[1], ++journals, left < RECORDS ? left : RECORDS, end);
    }
    atomic_store(&stop, true);
    CHECK(pthread_join(guest, NULL) == 0);

    printf("process calls: %lu, in %u journals; during %lu of them the guest wrote, %lu writes in all\nstatuses:", seen.calls, journals,
           seen.during, atomic_load(&changes));
    for (unsigned status = 0; status < 256; status++)
        if (seen.statuses[status])
            printf(" %u: %lu", status, seen.statuses[status]);
    printf("\n");
    CHECK(seen.during >= overlaps && seen.ok > 0 && seen.ok < seen.calls);
    return 0;
}
