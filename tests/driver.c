/*
 * Calls the C interface for the comparison program: requests on standard input, answers on standard output.
 *
 * A request is the call's number (1 byte), n (8 bytes) and the call's parts in the order of its arguments; a part is the
 * count of its elements (4 bytes) and their bytes. A part is a slice, or a single result with the count 1. Numbers are
 * little-endian. The answer is what the call returned (4 bytes), 1 if every guard byte still stands and else 0 (1 byte),
 * and the bytes of every part as they stand after the call, those that the call must not write among them.
 *
 * Each part lies by itself in the room, with guard bytes right before its first and right after its last byte.
 */
#include "../include/canon.h"

#include <unistd.h>

#define CALLS 8
#define PARTS 6
#define GUARD 64
#define ROOM 262144

static uint8_t room[ROOM];
static uint8_t in_buffer[65536], out_buffer[65536];
static size_t in_at, in_end, out_end;

struct part {
    size_t count;
    size_t bytes;
    uint8_t *at;
};

/* The sizes of the elements of each call's parts; 0 ends them. */
static const uint8_t sizes[CALLS + 1][PARTS + 1] = {
    {0},
    {2, 4, 4, 4, 4, 0},
    {2, 4, 4, 4, 4, 4, 0},
    {2, 4, 4, 4, 4, 4, 0},
    {2, 4, 1, 0},
    {1, 2, 1, 1, 8, 8, 0},
    {2, 1, 1, 1, 8, 0},
    {1, 1, 8, 0},
    {2, 4, 4, 4, 4, 0},
};

static void flush(void) {
    size_t at = 0;
    while (at < out_end) {
        long wrote = write(1, out_buffer + at, out_end - at);
        if (wrote <= 0) _exit(3);
        at += (size_t)wrote;
    }
    out_end = 0;
}

static void put(const void *from, size_t count) {
    const uint8_t *bytes = from;
    for (size_t i = 0; i < count; i++) {
        if (out_end == sizeof out_buffer) flush();
        out_buffer[out_end++] = bytes[i];
    }
}

/* The next count bytes of standard input; 0 at its end. What was answered is sent before the driver waits. */
static int get(void *to, size_t count) {
    uint8_t *bytes = to;
    for (size_t i = 0; i < count; i++) {
        if (in_at == in_end) {
            flush();
            long came = read(0, in_buffer, sizeof in_buffer);
            if (came <= 0) return 0;
            in_at = 0;
            in_end = (size_t)came;
        }
        bytes[i] = in_buffer[in_at++];
    }
    return 1;
}

static uint8_t guard_byte(const uint8_t *at) { return (uint8_t)(0xA5 ^ (uintptr_t)at * 31); }

static void set_guards(uint8_t *from, uint8_t *to) {
    for (; from < to; from++) *from = guard_byte(from);
}

static uint8_t guards_stand(const uint8_t *from, const uint8_t *to) {
    for (; from < to; from++)
        if (*from != guard_byte(from)) return 0;
    return 1;
}

/* Lays the parts of a request out in the room, guarded, and gives their number. */
static int lay_out(const uint8_t *size, struct part *parts) {
    uint8_t *free = room;
    int k = 0;
    for (; size[k]; k++) {
        uint32_t count;
        if (!get(&count, 4)) _exit(4);
        parts[k].count = count;
        parts[k].bytes = (size_t)count * size[k];
        uint8_t *at = free + GUARD;
        at += (size_t)(-(uintptr_t)at & 15);
        if (parts[k].bytes > (size_t)(room + ROOM - at) - GUARD - 16) _exit(5);
        set_guards(free, at);
        if (!get(at, parts[k].bytes)) _exit(4);
        parts[k].at = at;
        free = at + parts[k].bytes;
    }
    set_guards(free, free + GUARD);
    return k;
}

static uint8_t all_stand(const struct part *parts, int count) {
    const uint8_t *free = room;
    for (int k = 0; k < count; k++) {
        if (!guards_stand(free, parts[k].at)) return 0;
        free = parts[k].at + parts[k].bytes;
    }
    return guards_stand(free, free + GUARD);
}

#define SLICE(type, k) (type *)(void *)p[k].at, p[k].count
#define SINGLE(type, k) (type *)(void *)p[k].at

static uint32_t call(uint8_t number, size_t n, struct part *p) {
    switch (number) {
    case 1:
        return canon_solve(n, SLICE(int16_t, 0), SLICE(uint32_t, 1), SLICE(uint32_t, 2), SLICE(int32_t, 3),
                           SINGLE(int32_t, 4));
    case 2:
        return canon_from_canon(n, SLICE(int16_t, 0), SLICE(uint32_t, 1), SLICE(uint32_t, 2), SLICE(uint32_t, 3),
                                SLICE(int32_t, 4), SINGLE(int32_t, 5));
    case 3:
        return canon_from_stars(n, SLICE(int16_t, 0), SLICE(uint32_t, 1), SLICE(uint32_t, 2), SLICE(uint32_t, 3),
                                SLICE(int32_t, 4), SINGLE(int32_t, 5));
    case 4:
        return canon_is_simplest(n, SLICE(int16_t, 0), SLICE(uint32_t, 1), SINGLE(uint8_t, 2));
    case 5:
        return canon_read_sheet(SLICE(uint8_t, 0), SLICE(int16_t, 1), SLICE(uint8_t, 2), SLICE(uint8_t, 3),
                                SINGLE(size_t, 4), SINGLE(size_t, 5));
    case 6:
        return canon_write_sheet(n, SLICE(int16_t, 0), SLICE(uint8_t, 1), SLICE(uint8_t, 2), SLICE(uint8_t, 3),
                                 SINGLE(size_t, 4));
    case 7:
        return canon_print(SLICE(uint8_t, 0), SLICE(uint8_t, 1), SINGLE(size_t, 2));
    case 8:
        return canon_column_heads(n, SLICE(int16_t, 0), SLICE(uint32_t, 1), SLICE(int32_t, 2), SLICE(uint32_t, 3),
                                  SLICE(uint32_t, 4));
    default:
        _exit(6);
    }
}

int main(void) {
    uint8_t number;
    while (get(&number, 1)) {
        uint64_t n;
        struct part parts[PARTS];
        if (number == 0 || number > CALLS || !get(&n, 8)) _exit(4);
        int count = lay_out(sizes[number], parts);
        uint32_t status = call(number, (size_t)n, parts);
        uint8_t guarded = all_stand(parts, count);
        put(&status, 4);
        put(&guarded, 1);
        for (int k = 0; k < count; k++) put(parts[k].at, parts[k].bytes);
    }
    flush();
    return 0;
}
