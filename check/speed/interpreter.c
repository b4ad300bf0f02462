/* A plain interpreter in C, against which the machine is measured (docs/performance.md). It has the checks of the
   machine: the alignment of each fetch, load and store, the segment and its flag, undefined words, the targets of
   jumps, the calls, and the count of instructions. It decodes each word each time that it runs.

   interpreter CODE runs the instructions of the file CODE from 65536 on, with a region of 4096 bytes at 131072 and no
   input, and prints how the run ended and the bytes that it sent. */
#include <stdint.h>
#include <stdio.h>
#include <string.h>

enum { FLAG_X = 1, FLAG_W = 2, FLAG_R = 4 };

enum kind { RAN, EXITED, TRAPPED, SINK_FAULT, BUDGET };

enum cause { FETCH, UNDEFINED, LOAD, STORE, TARGET, EBREAK, CALL, BUFFER };

struct segment {
    uint64_t address;
    uint64_t size;
    uint32_t flags;
    uint8_t *bytes;
};

struct machine {
    uint64_t pc;
    uint64_t registers[32];
    uint64_t taken;
    const struct segment *segments;
    int segment_count;
    uint8_t *output;
    uint64_t output_size;
    uint64_t output_room;
    enum cause cause;
    uint8_t code;
};

/* The bytes from an address on, where they lie in one segment with the flag. */
static inline uint8_t *find(const struct machine *m, uint32_t flag, uint64_t address, uint64_t size)
{
    for (int i = 0; i < m->segment_count; i++) {
        const struct segment *s = &m->segments[i];
        if ((s->flags & flag) && s->address <= address && size <= s->size && address - s->address <= s->size - size)
            return s->bytes + (address - s->address);
    }
    return NULL;
}

static inline enum kind trap(struct machine *m, enum cause cause)
{
    m->cause = cause;
    return TRAPPED;
}

static inline enum kind go_on(struct machine *m)
{
    m->pc += 4;
    return RAN;
}

static inline enum kind set(struct machine *m, unsigned rd, uint64_t value)
{
    if (rd != 0)
        m->registers[rd] = value;
    return go_on(m);
}

static inline enum kind jump(struct machine *m, unsigned rd, uint64_t target)
{
    if (target % 4 != 0)
        return trap(m, TARGET);
    if (rd != 0)
        m->registers[rd] = m->pc + 4;
    m->pc = target;
    return RAN;
}

/* The lowest `width` bits, extended by their sign. */
static inline uint64_t extended(uint64_t bits, int width)
{
    return (uint64_t)((int64_t)(bits << (64 - width)) >> (64 - width));
}

static inline uint64_t word(uint64_t value) { return extended(value, 32); }

static inline uint64_t i_immediate(uint32_t w) { return extended(w >> 20, 12); }

static inline uint64_t s_immediate(uint32_t w) { return extended((w >> 25) << 5 | (w >> 7 & 0x1f), 12); }

static inline uint64_t u_immediate(uint32_t w) { return extended(w & 0xfffff000, 32); }

static inline uint64_t b_immediate(uint32_t w)
{
    return extended((w >> 31) << 12 | (w >> 7 & 1) << 11 | (w >> 25 & 0x3f) << 5 | (w >> 8 & 0xf) << 1, 13);
}

static inline uint64_t j_immediate(uint32_t w)
{
    return extended((w >> 31) << 20 | (w >> 12 & 0xff) << 12 | (w >> 20 & 1) << 11 | (w >> 21 & 0x3ff) << 1, 21);
}

/* opcode 0110011 */
static inline enum kind operate(struct machine *m, uint32_t w, unsigned rd, uint64_t a, uint64_t b)
{
    int64_t x = (int64_t)a, y = (int64_t)b;
    switch ((w >> 25) << 3 | (w >> 12 & 7)) {
    case 0x000: return set(m, rd, a + b);
    case 0x100: return set(m, rd, a - b);
    case 0x001: return set(m, rd, a << (b & 63));
    case 0x002: return set(m, rd, x < y);
    case 0x003: return set(m, rd, a < b);
    case 0x004: return set(m, rd, a ^ b);
    case 0x005: return set(m, rd, a >> (b & 63));
    case 0x105: return set(m, rd, (uint64_t)(x >> (b & 63)));
    case 0x006: return set(m, rd, a | b);
    case 0x007: return set(m, rd, a & b);
    case 0x008: return set(m, rd, a * b);
    case 0x009: return set(m, rd, (uint64_t)(((__int128)x * y) >> 64));
    case 0x00a: return set(m, rd, (uint64_t)(((__int128)x * (__int128)b) >> 64));
    case 0x00b: return set(m, rd, (uint64_t)(((unsigned __int128)a * b) >> 64));
    case 0x00c: return set(m, rd, b == 0 ? UINT64_MAX : y == -1 ? -a : (uint64_t)(x / y));
    case 0x00d: return set(m, rd, b == 0 ? UINT64_MAX : a / b);
    case 0x00e: return set(m, rd, b == 0 ? a : y == -1 ? 0 : (uint64_t)(x % y));
    case 0x00f: return set(m, rd, b == 0 ? a : a % b);
    default: return trap(m, UNDEFINED);
    }
}

/* opcode 0111011 */
static inline enum kind operate_word(struct machine *m, uint32_t w, unsigned rd, uint64_t a, uint64_t b)
{
    int64_t x = (int32_t)a, y = (int32_t)b;
    uint32_t p = (uint32_t)a, q = (uint32_t)b;
    switch ((w >> 25) << 3 | (w >> 12 & 7)) {
    case 0x000: return set(m, rd, word(a + b));
    case 0x100: return set(m, rd, word(a - b));
    case 0x001: return set(m, rd, word(a << (b & 31)));
    case 0x005: return set(m, rd, word(p >> (b & 31)));
    case 0x105: return set(m, rd, (uint64_t)(x >> (b & 31)));
    case 0x008: return set(m, rd, word(a * b));
    case 0x00c: return set(m, rd, y == 0 ? UINT64_MAX : word((uint64_t)(x / y)));
    case 0x00d: return set(m, rd, q == 0 ? UINT64_MAX : word(p / q));
    case 0x00e: return set(m, rd, y == 0 ? word(a) : (uint64_t)(x % y));
    case 0x00f: return set(m, rd, q == 0 ? word(a) : word(p % q));
    default: return trap(m, UNDEFINED);
    }
}

/* opcode 0010011 */
static inline enum kind operate_immediate(struct machine *m, uint32_t w, unsigned rd, uint64_t a)
{
    uint64_t z = i_immediate(w);
    unsigned amount = w >> 20 & 0x3f, upper = w >> 26;
    switch (w >> 12 & 7) {
    case 0: return set(m, rd, a + z);
    case 1: return upper == 0 ? set(m, rd, a << amount) : trap(m, UNDEFINED);
    case 2: return set(m, rd, (int64_t)a < (int64_t)z);
    case 3: return set(m, rd, a < z);
    case 4: return set(m, rd, a ^ z);
    case 5:
        if (upper == 0)
            return set(m, rd, a >> amount);
        return upper == 16 ? set(m, rd, (uint64_t)((int64_t)a >> amount)) : trap(m, UNDEFINED);
    case 6: return set(m, rd, a | z);
    default: return set(m, rd, a & z);
    }
}

/* opcode 0011011 */
static inline enum kind operate_word_immediate(struct machine *m, uint32_t w, unsigned rd, uint64_t a)
{
    unsigned amount = w >> 20 & 0x1f;
    switch ((w >> 12 & 7) == 0 ? 0 : (w >> 25) << 3 | (w >> 12 & 7)) {
    case 0x000: return set(m, rd, word(a + i_immediate(w)));
    case 0x001: return set(m, rd, word(a << amount));
    case 0x005: return set(m, rd, word((uint32_t)a >> amount));
    case 0x105: return set(m, rd, (uint64_t)(int64_t)((int32_t)a >> amount));
    default: return trap(m, UNDEFINED);
    }
}

/* opcode 0000011 */
static inline enum kind load(struct machine *m, uint32_t w, unsigned rd, uint64_t a)
{
    unsigned form = w >> 12 & 7;
    uint64_t address = a + i_immediate(w), size = 1u << (form & 3);
    uint8_t *bytes;
    uint16_t half;
    uint32_t single;
    uint64_t both;
    if (form == 7)
        return trap(m, UNDEFINED);
    if (address & (size - 1))
        return trap(m, LOAD);
    bytes = find(m, FLAG_R, address, size);
    if (!bytes)
        return trap(m, LOAD);
    switch (form) {
    case 0: return set(m, rd, extended(*bytes, 8));
    case 1: memcpy(&half, bytes, 2); return set(m, rd, extended(half, 16));
    case 2: memcpy(&single, bytes, 4); return set(m, rd, extended(single, 32));
    case 3: memcpy(&both, bytes, 8); return set(m, rd, both);
    case 4: return set(m, rd, *bytes);
    case 5: memcpy(&half, bytes, 2); return set(m, rd, half);
    default: memcpy(&single, bytes, 4); return set(m, rd, single);
    }
}

/* opcode 0100011 */
static inline enum kind store(struct machine *m, uint32_t w, uint64_t a, uint64_t b)
{
    unsigned form = w >> 12 & 7;
    uint64_t address = a + s_immediate(w), size = 1u << (form & 3);
    uint8_t *bytes;
    if (form > 3)
        return trap(m, UNDEFINED);
    if (address & (size - 1))
        return trap(m, STORE);
    bytes = find(m, FLAG_W, address, size);
    if (!bytes)
        return trap(m, STORE);
    switch (form) {
    case 0: *bytes = (uint8_t)b; break;
    case 1: memcpy(bytes, &b, 2); break;
    case 2: memcpy(bytes, &b, 4); break;
    default: memcpy(bytes, &b, 8); break;
    }
    return go_on(m);
}

/* opcode 1100011 */
static inline enum kind branch(struct machine *m, uint32_t w, uint64_t a, uint64_t b)
{
    int taken;
    switch (w >> 12 & 7) {
    case 0: taken = a == b; break;
    case 1: taken = a != b; break;
    case 4: taken = (int64_t)a < (int64_t)b; break;
    case 5: taken = (int64_t)a >= (int64_t)b; break;
    case 6: taken = a < b; break;
    case 7: taken = a >= b; break;
    default: return trap(m, UNDEFINED);
    }
    return taken ? jump(m, 0, m->pc + b_immediate(w)) : go_on(m);
}

static inline enum kind receive(struct machine *m)
{
    if (m->registers[12] != 0 && !find(m, FLAG_W, m->registers[11], m->registers[12]))
        return trap(m, BUFFER);
    return set(m, 10, 0);
}

static inline enum kind send(struct machine *m)
{
    uint64_t size = m->registers[12];
    uint8_t *bytes;
    if (size == 0)
        return set(m, 10, 0);
    bytes = find(m, FLAG_R, m->registers[11], size);
    if (!bytes)
        return trap(m, BUFFER);
    if (size > m->output_room - m->output_size)
        return SINK_FAULT;
    memcpy(m->output + m->output_size, bytes, size);
    m->output_size += size;
    return set(m, 10, size);
}

/* opcode 1110011 */
static inline enum kind call(struct machine *m, uint32_t w)
{
    if (w == 0x00100073)
        return trap(m, EBREAK);
    if (w != 0x00000073)
        return trap(m, UNDEFINED);
    if (m->registers[17] == 93) {
        m->code = (uint8_t)m->registers[10];
        return EXITED;
    }
    if (m->registers[17] == 63 && m->registers[10] == 0)
        return receive(m);
    if (m->registers[17] == 64 && m->registers[10] == 1)
        return send(m);
    return trap(m, CALL);
}

static inline enum kind step(struct machine *m)
{
    uint8_t *bytes;
    uint32_t w;
    uint64_t a, b;
    unsigned rd;
    if (m->pc % 4 != 0)
        return trap(m, FETCH);
    bytes = find(m, FLAG_X, m->pc, 4);
    if (!bytes)
        return trap(m, FETCH);
    memcpy(&w, bytes, 4);
    rd = w >> 7 & 0x1f;
    a = m->registers[w >> 15 & 0x1f];
    b = m->registers[w >> 20 & 0x1f];
    switch (w & 0x7f) {
    case 0x33: return operate(m, w, rd, a, b);
    case 0x3b: return operate_word(m, w, rd, a, b);
    case 0x13: return operate_immediate(m, w, rd, a);
    case 0x1b: return operate_word_immediate(m, w, rd, a);
    case 0x03: return load(m, w, rd, a);
    case 0x23: return store(m, w, a, b);
    case 0x63: return branch(m, w, a, b);
    case 0x37: return set(m, rd, u_immediate(w));
    case 0x17: return set(m, rd, m->pc + u_immediate(w));
    case 0x6f: return jump(m, rd, m->pc + j_immediate(w));
    case 0x67: return (w >> 12 & 7) == 0 ? jump(m, rd, (a + i_immediate(w)) & ~(uint64_t)1) : trap(m, UNDEFINED);
    case 0x0f: return (w >> 12 & 7) == 0 ? go_on(m) : trap(m, UNDEFINED);
    case 0x73: return call(m, w);
    default: return trap(m, UNDEFINED);
    }
}

static enum kind run(struct machine *m, uint64_t budget)
{
    for (uint64_t i = 0; i < budget; i++) {
        enum kind kind = step(m);
        if (kind != RAN)
            return kind;
        if (m->taken != UINT64_MAX)
            m->taken++;
    }
    return BUDGET;
}

int main(int count, char **words)
{
    static uint8_t code[4096], region[4096], output[8];
    FILE *file = count == 2 ? fopen(words[1], "rb") : NULL;
    if (!file)
        return 2;
    uint64_t size = fread(code, 1, sizeof code, file);
    fclose(file);
    struct segment segments[2] = {
        {65536, size, FLAG_X, code},
        {131072, sizeof region, FLAG_R | FLAG_W, region},
    };
    struct machine m = {.pc = 65536, .segments = segments, .segment_count = 2, .output = output, .output_room = sizeof output};
    enum kind kind = run(&m, 200000000);
    printf("kind %d cause %d code %d taken %lu\n", kind, m.cause, m.code, m.taken);
    for (uint64_t i = 0; i < m.output_size; i++)
        printf("%d\n", output[i]);
    return 0;
}
