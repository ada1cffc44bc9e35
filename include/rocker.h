/* The Rocker switch for a host in C (from C99 on) or C++ (from C++11 on). The functions of the archive are those of the proved crate
 * `capi`: link libcapi.a, which `shell/build libcapi.a` proves and writes to target/staticlib/. docs/C-INTERFACE.md has the table of answers,
 * how a host keeps a journal, and an account of what is proved.
 *
 * A device is a struct that the host holds. Each call answers with a number: 0 is done, and any other means that the device, guest
 * memory, the buffer and the list are as they were.
 *
 * The proofs are about what the parameters' types promise, and a caller in C is checked by nothing. It sees to this, at each call:
 *   - No pointer is null and each is aligned for its type, also where the length beside it is 0.
 *   - A pointer with a length has that many elements behind it. They may be read and, where the pointer is not const, written.
 *   - No two of the places that a call is given overlap, unless it only reads both: so neither the device nor buffer, list or
 *     outcome lies in the guest memory that is handed in. While the call runs, no other thread writes a place that it is given, or reads
 *     one that it writes. Of guest memory alone: docs/C-INTERFACE.md, "A guest that keeps running".
 *   - There are ROCKER_STACK bytes of room on the stack.
 * It need not look after the device's contents: every pattern of bytes is a device. One may be copied, moved and stored; it holds no
 * pointer.
 */
#ifndef ROCKER_H
#define ROCKER_H

#include <stddef.h>
#include <stdint.h>

#ifdef __cplusplus
extern "C" {
#endif

/* How many flows and groups a device has places for, how many ports it may have, how many numbers an output has, how many outputs a frame
 * may have and the numbers that its list must have room for, and the stack that a call may need, in bytes. */
#define ROCKER_FLOWS 256
#define ROCKER_GROUPS 128
#define ROCKER_PORTS 62
#define ROCKER_OUTPUT 9
#define ROCKER_OUTPUTS 62
#define ROCKER_LIST 558
#define ROCKER_STACK 16384

/* The journal, in bytes: its header; the longest payload; the longest record, which a buffer of that length always has room for. */
#define ROCKER_HEADER_BYTES 6
#define ROCKER_PAYLOAD 4096
#define ROCKER_RECORD (6 + ROCKER_PAYLOAD)

/* The vector that is raised where an outcome says so; the credits at which process stops; the least and the most bytes of a frame. */
#define ROCKER_VECTOR 0
#define ROCKER_CREDITS 65536
#define ROCKER_FRAME_LEAST 14
#define ROCKER_FRAME_MOST 9216

/* The registers by their offsets, with the bytes of an access. Those of 8 may be read and written in halves of 4. What is not listed is
 * reserved: it reads 0, and a write of it does nothing, like one of a register that is read only. */
enum rocker_register {
    ROCKER_REG_BOGUS = 0x0000,                 /* 4 or 8: each 4 of the first 16 bytes read ROCKER_BOGUS; writes do nothing */
    ROCKER_REG_TEST = 0x0010,                  /* 4: reads twice what was written */
    ROCKER_REG_TEST64 = 0x0018,                /* 8: the same */
    ROCKER_REG_CONTROL = 0x0300,               /* 4: ROCKER_RESET resets the device; reads 0 */
    ROCKER_REG_PORT_PHYS_COUNT = 0x0304,       /* 4, read only */
    ROCKER_REG_PORT_PHYS_LINK_STATUS = 0x0310, /* 8, read only: bit p is port p */
    ROCKER_REG_PORT_PHYS_ENABLE = 0x0318,      /* 8: bit p is port p */
    ROCKER_REG_SWITCH_ID = 0x0320,             /* 8, read only */
    ROCKER_REG_BASE_ADDR = 0x1000,             /* 8: where the ring's descriptors stand, a multiple of 8; zeroes HEAD and TAIL */
    ROCKER_REG_SIZE = 0x1008,                  /* 4: the ring's slots, a power of two from 2 to 65,536; zeroes HEAD and TAIL */
    ROCKER_REG_HEAD = 0x100c,                  /* 4: posts the slots from the HEAD of before up to the new one */
    ROCKER_REG_TAIL = 0x1010,                  /* 4, read only: the slot that is processed next */
    ROCKER_REG_CTRL = 0x1014,                  /* 4: ROCKER_RESET resets the ring, not the tables; reads 0 */
    ROCKER_REG_CREDITS = 0x1018,               /* 4: slots consumed and not yet returned; a write returns as many */
    ROCKER_REG_END = 0x2000                    /* no register: the first offset that no access may reach */
};
#define ROCKER_BOGUS 0xDEADBABE
#define ROCKER_RESET 1 /* bit 0 of CONTROL and of CTRL */

/* What a call answers. Any but ROCKER_DONE means that nothing has changed. */
enum rocker_answer {
    ROCKER_DONE = 0,
    ROCKER_BAD_ACCESS = 1,     /* read, write: offset and width are not allowed together */
    ROCKER_BAD_VALUE = 2,      /* write: the register does not take it; link: neither 0 nor 1; rocker_call: a kind above 5 */
    ROCKER_IDLE = 3,           /* process: HEAD is TAIL, nothing is posted */
    ROCKER_CREDITS_FULL = 4,   /* process: the guest has ROCKER_CREDITS credits to return */
    ROCKER_BAD_DESCRIPTOR = 5, /* process: the descriptor is not inside guest memory */
    ROCKER_SHORT_BUFFER = 6,   /* process, header: the buffer is shorter than what goes there */
    ROCKER_BAD_PORT = 7,       /* fresh: not 1 to 62 ports; link, frame: not a port of the device */
    ROCKER_BAD_FRAME = 8,      /* frame: not ROCKER_FRAME_LEAST to ROCKER_FRAME_MOST bytes, or a tag that is cut */
    ROCKER_SHORT_LIST = 9      /* frame: the list has fewer than ROCKER_LIST numbers */
};

/* A descriptor in guest memory: its length, and where its fields begin, with the bytes that each has. */
#define ROCKER_DESC_BYTES 32
enum rocker_descriptor {
    ROCKER_DESC_BUF_ADDR = 0,  /* 8: where the payload begins, a multiple of 8 */
    ROCKER_DESC_COOKIE = 8,    /* 8: the guest's own */
    ROCKER_DESC_BUF_SIZE = 16, /* 2: the bytes that it lends */
    ROCKER_DESC_TLV_SIZE = 18, /* 2: those of the payload */
    ROCKER_DESC_COMP_ERR = 30  /* 2: written when the slot is completed, ROCKER_COMPLETED plus the status */
};

/* How a command was completed. COMP_ERR, `completed` of an outcome and the first two bytes of a record are ROCKER_COMPLETED plus this. */
#define ROCKER_COMPLETED 0x8000
enum rocker_status {
    ROCKER_STATUS_OK = 0,        /* carried out, and charged */
    ROCKER_STATUS_ENOENT = 2,    /* mod, del: no such flow or group */
    ROCKER_STATUS_ENXIO = 6,     /* the payload is misaligned or not inside guest memory */
    ROCKER_STATUS_ENOMEM = 12,   /* add: all places are taken */
    ROCKER_STATUS_EEXIST = 17,   /* add: such a flow or group is there */
    ROCKER_STATUS_EINVAL = 22,   /* TLV_SIZE is above BUF_SIZE, the payload ill formed, or a field missing, given twice or not allowed */
    ROCKER_STATUS_EMSGSIZE = 90, /* the payload has more than ROCKER_PAYLOAD bytes */
    ROCKER_STATUS_ENOTSUP = 95   /* no such command, or no such table */
};

/* A device. All zero it has no ports: rocker_fresh makes it one that has. A host has no need to look inside. */
struct rocker {
    /* switch ID, links, enable, TEST_REG64, BASE_ADDR; ports, three latches and TEST_REG, SIZE, HEAD, TAIL, CREDITS of 32 bits; how many
     * flows and how many groups are live; where the flows of tables 10, 20, 30 and 50 begin in their order */
    uint64_t registers[20];
    uint32_t flows[ROCKER_FLOWS][22];
    uint32_t heads[ROCKER_GROUPS][8]; /* of groups: ID, POP_VLAN, number of members, VLAN, two MACs of two words each */
    uint16_t members[ROCKER_GROUPS][62];
    uint8_t order[ROCKER_FLOWS]; /* the places of the live flows in the order in which they decide */
};

/* What a call gives besides its answer. What a call does not give, and all that a refused one gives, is 0. */
struct rocker_outcome {
    uint64_t value;     /* what a register reads */
    uint64_t raised;    /* 1 if vector 0 was raised */
    uint64_t completed; /* COMP_ERR as process wrote it into the descriptor */
    uint64_t bytes;     /* bytes written to the start of the buffer */
    uint64_t outputs;   /* outputs written to the start of the list, ROCKER_OUTPUT numbers each */
    uint64_t reset;     /* 1 if the device was reset: its journal ends, and a new one begins */
};

/* Where this does not compile, a device has not the 42,912 bytes that the archive's has. */
typedef char rocker_has_its_size[sizeof(struct rocker) == 42912 ? 1 : -1];

/* Where the numbers of an output begin. A routed frame leaves with these MACs; both are 0 where it is bridged and keeps its own.
 * docs/C-INTERFACE.md, "Outputs", has what an output asks of the host. */
enum rocker_output {
    ROCKER_PORT = 0,     /* 0 is the host */
    ROCKER_VLAN = 1,
    ROCKER_POP_VLAN = 2, /* 1: it leaves without a tag */
    ROCKER_SOURCE = 3,   /* of a MAC three numbers, two bytes each, the first one high */
    ROCKER_DESTINATION = 6
};

/* The kinds of a call, with the numbers that each takes. The others of its three numbers are not looked at. */
enum rocker_kind {
    ROCKER_READ = 0,    /* offset, width */
    ROCKER_WRITE = 1,   /* offset, width, value */
    ROCKER_LINK = 2,    /* port, 0 for down or 1 for up */
    ROCKER_PROCESS = 3, /* uses guest memory and the buffer */
    ROCKER_FRAME = 4,   /* port; uses the frame and the list */
    ROCKER_HEADER = 5   /* uses the buffer */
};

/* ---- The archive. Its functions are given the parts of a device that they need; hosts call them by the names further below. */

/* The size of a device in the archive. A host compares it once with sizeof(struct rocker), so that header and archive agree. */
uint64_t rocker_size(void);

uint32_t rocker_fresh_parts(uint64_t registers[20], uint32_t flows[ROCKER_FLOWS][22], uint32_t heads[ROCKER_GROUPS][8],
                            uint16_t members[ROCKER_GROUPS][62], uint8_t order[ROCKER_FLOWS], uint64_t ports, uint64_t switch_id);

uint32_t rocker_read_parts(const uint64_t registers[20], uint64_t offset, uint64_t width, uint64_t *value);

uint32_t rocker_write_parts(uint64_t registers[20], uint64_t offset, uint64_t width, uint64_t value, uint64_t *raised,
                            uint64_t *reset);

uint32_t rocker_link_parts(uint64_t registers[20], uint64_t port, uint64_t up);

uint32_t rocker_process_parts(uint64_t registers[20], uint32_t flows[ROCKER_FLOWS][22], uint32_t heads[ROCKER_GROUPS][8],
                              uint16_t members[ROCKER_GROUPS][62], uint8_t order[ROCKER_FLOWS], uint8_t *memory, size_t memory_length,
                              uint8_t *buffer, size_t buffer_length, uint64_t *raised, uint64_t *completed, uint64_t *bytes);

uint32_t rocker_frame_parts(const uint64_t registers[20], const uint32_t flows[ROCKER_FLOWS][22], const uint32_t heads[ROCKER_GROUPS][8],
                            const uint16_t members[ROCKER_GROUPS][62], const uint8_t order[ROCKER_FLOWS], uint64_t port,
                            const uint8_t *frame, size_t frame_length, uint16_t *list, size_t list_length, uint64_t *outputs);

uint32_t rocker_header_parts(const uint64_t registers[20], uint8_t *buffer, size_t buffer_length, uint64_t *bytes);

/* out: value, raised, completed, bytes, outputs, reset */
uint32_t rocker_call_parts(uint64_t registers[20], uint32_t flows[ROCKER_FLOWS][22], uint32_t heads[ROCKER_GROUPS][8],
                           uint16_t members[ROCKER_GROUPS][62], uint8_t order[ROCKER_FLOWS], uint64_t kind, uint64_t a, uint64_t b,
                           uint64_t c, uint8_t *memory, size_t memory_length, const uint8_t *frame, size_t frame_length, uint8_t *buffer,
                           size_t buffer_length, uint16_t *list, size_t list_length, uint64_t out[6]);

/* ---- The calls */

/* A new device: 1 to 62 ports, all links down, the tables empty. Another port count gets 7 and leaves what was there. */
static inline uint32_t rocker_fresh(struct rocker *d, uint64_t ports, uint64_t switch_id)
{
    return rocker_fresh_parts(d->registers, d->flows, d->heads, d->members, d->order, ports, switch_id);
}

/* A register read. The value goes to *value, 0 if it is refused. */
static inline uint32_t rocker_read(const struct rocker *d, uint64_t offset, uint64_t width, uint64_t *value)
{
    return rocker_read_parts(d->registers, offset, width, value);
}

/* A register write. Of the outcome, all but raised and reset is 0; reset is 1 exactly if bit ROCKER_RESET of CONTROL
 * was written. */
static inline uint32_t rocker_write(struct rocker *d, uint64_t offset, uint64_t width, uint64_t value, struct rocker_outcome *o)
{
    o->value = 0;
    o->completed = 0;
    o->bytes = 0;
    o->outputs = 0;
    return rocker_write_parts(d->registers, offset, width, value, &o->raised, &o->reset);
}

/* The owner sets a port's link: 0 is down, 1 is up, any other number gets 2. */
static inline uint32_t rocker_link(struct rocker *d, uint64_t port, uint64_t up)
{
    return rocker_link_parts(d->registers, port, up);
}

/* Process the slot at TAIL: two bytes of its descriptor are written to guest memory, whose first byte is guest address 0, and the
 * journal's record to the start of the buffer, where ROCKER_RECORD bytes are always enough. Of the outcome, value, outputs and reset are
 * 0. */
static inline uint32_t rocker_process(struct rocker *d, uint8_t *memory, size_t memory_length, uint8_t *buffer, size_t buffer_length,
                                      struct rocker_outcome *o)
{
    o->value = 0;
    o->outputs = 0;
    o->reset = 0;
    return rocker_process_parts(d->registers, d->flows, d->heads, d->members, d->order, memory, memory_length, buffer, buffer_length,
                                &o->raised, &o->completed, &o->bytes);
}

/* A frame in at a port. Its outputs go to the start of the list, which has room for ROCKER_LIST numbers, and how many they are to *outputs,
 * 0 if it is refused. The frame is only read: tag, MACs and all else are the host's to change. */
static inline uint32_t rocker_frame(const struct rocker *d, uint64_t port, const uint8_t *frame, size_t frame_length, uint16_t *list,
                                    size_t list_length, uint64_t *outputs)
{
    return rocker_frame_parts(d->registers, d->flows, d->heads, d->members, d->order, port, frame, frame_length, list, list_length,
                              outputs);
}

#ifdef __cplusplus
#define ROCKER_BYTE(n) static_cast<uint8_t>(n)
#else
#define ROCKER_BYTE(n) ((uint8_t)(n))
#endif

/* The six bytes of a MAC from its three numbers in an output: rocker_mac(list + ROCKER_OUTPUT * k + ROCKER_SOURCE, mac). */
static inline void rocker_mac(const uint16_t numbers[3], uint8_t mac[6])
{
    for (unsigned i = 0; i < 3; i++) {
        mac[2 * i] = ROCKER_BYTE(numbers[i] >> 8);
        mac[2 * i + 1] = ROCKER_BYTE(numbers[i] & 0xff);
    }
}
#undef ROCKER_BYTE

/* The journal's header, ROCKER_HEADER_BYTES to the start of the buffer: what a journal begins with. Of the outcome, all but bytes is 0. */
static inline uint32_t rocker_header(const struct rocker *d, uint8_t *buffer, size_t buffer_length, struct rocker_outcome *o)
{
    o->value = 0;
    o->raised = 0;
    o->completed = 0;
    o->outputs = 0;
    o->reset = 0;
    return rocker_header_parts(d->registers, buffer, buffer_length, &o->bytes);
}

/* Any call by its kind, with all that it may borrow: guest memory; a frame, which is only read; the buffer, for the journal; the list, for
 * a frame's outputs. A kind above 5, or a link that is neither 0 nor 1, gets 2. What a kind does not use may have length 0, but no null
 * pointer. */
static inline uint32_t rocker_call(struct rocker *d, uint64_t kind, uint64_t a, uint64_t b, uint64_t c, uint8_t *memory,
                                   size_t memory_length, const uint8_t *frame, size_t frame_length, uint8_t *buffer,
                                   size_t buffer_length, uint16_t *list, size_t list_length, struct rocker_outcome *o)
{
    uint64_t out[6];
    uint32_t answer = rocker_call_parts(d->registers, d->flows, d->heads, d->members, d->order, kind, a, b, c, memory, memory_length,
                                        frame, frame_length, buffer, buffer_length, list, list_length, out);
    o->value = out[0];
    o->raised = out[1];
    o->completed = out[2];
    o->bytes = out[3];
    o->outputs = out[4];
    o->reset = out[5];
    return answer;
}

#ifdef __cplusplus
}
#endif

#endif
