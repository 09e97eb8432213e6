/* The ticks of crates/timing by a plain loop that fills the same frame, for comparison. Prints the same sum. */
#include <inttypes.h>
#include <stdint.h>
#include <stdio.h>
#include <stdlib.h>

enum { TICKS = 20000000, PLACES = 65536, POSITIONS = 1 << 27 };

struct voice {
    uint8_t env, pan;
    uint32_t step, start, loop_start, position;
    int rests;
};

struct side {
    int16_t contributions[8];
    int32_t total;
    uint16_t word;
};

struct frame {
    struct side left, right;
};

static const uint8_t REGISTERS[8][7] = {
    {255, 0xFF, 0x00, 0x08, 0, 0, 0x00}, {200, 0x5A, 0x34, 0x07, 0, 0, 0x10},
    {180, 0xA5, 0x01, 0x0A, 0, 0, 0x20}, {160, 0x3C, 0x80, 0x05, 0, 0, 0x30},
    {140, 0xC3, 0x77, 0x09, 0, 0, 0x40}, {120, 0x69, 0x10, 0x0C, 0, 0, 0x50},
    {100, 0x96, 0xF0, 0x03, 0, 0, 0x60}, {80, 0x1E, 0x0F, 0x10, 0, 0, 0x70},
};

static int32_t level(uint8_t byte, uint8_t env, uint8_t share) {
    int32_t size = (byte & 127) * env * share / 32;
    return byte & 128 ? size : -size;
}

static void finish(struct side *side) {
    int32_t total = 0;
    for (int k = 0; k < 8; k++) total += side->contributions[k];
    side->total = total;
    side->word = (uint16_t)(total < -32768 ? -32768 : total > 32767 ? 32767 : total);
}

static void tick(struct voice *voices, uint8_t channel, const uint8_t *bytes, struct frame *frame) {
    for (int k = 0; k < 8; k++) {
        struct voice *v = &voices[k];
        if (channel >> k & 1) {
            v->rests = 1;
            frame->left.contributions[k] = frame->right.contributions[k] = 0;
            continue;
        }
        uint32_t p = v->rests ? v->start : (v->position + v->step) % POSITIONS;
        v->rests = 0;
        uint8_t byte = bytes[p >> 11];
        if (byte == 0xFF) {
            p = v->loop_start;
            byte = bytes[p >> 11];
        }
        v->position = p;
        frame->left.contributions[k] = (int16_t)level(byte, v->env, v->pan & 15);
        frame->right.contributions[k] = (int16_t)level(byte, v->env, v->pan >> 4);
    }
    finish(&frame->left);
    finish(&frame->right);
}

/* Each part of a frame counts, and contributions at a place that the left word names, so that none is left out. */
static int64_t weighed(const struct frame *frame) {
    const struct side *left = &frame->left, *right = &frame->right;
    int voice = left->word % 8;
    int64_t totals = (int64_t)left->total - 3 * (int64_t)right->total;
    int64_t items = (int64_t)left->contributions[voice] - 5 * (int64_t)right->contributions[voice];
    int64_t words = (int64_t)left->word - 7 * (int64_t)right->word;
    return totals + items + words;
}

/* No argument switches all voices on; the compiler is not told that there is none. */
int main(int arguments, char **names) {
    uint8_t channel = arguments > 1 ? (uint8_t)names[1][0] : 0;
    uint8_t *bytes = malloc(PLACES);
    if (!bytes) return 1;
    for (uint32_t place = 0; place < PLACES; place++) {
        uint8_t value = (uint8_t)(place * 2654435761u >> 24);
        bytes[place] = place % 4096 == 4095 ? 0xFF : value & 0xFE;
    }
    struct voice voices[8];
    for (int k = 0; k < 8; k++) {
        const uint8_t *r = REGISTERS[k];
        voices[k] = (struct voice){r[0], r[1], r[3] * 256u + r[2], r[6] * 524288u, (r[5] * 256u + r[4]) * 2048u, 0, 1};
    }
    static struct frame frame;
    int64_t sum = 0;
    for (int i = 0; i < TICKS; i++) {
        tick(voices, channel, bytes, &frame);
        sum += weighed(&frame);
    }
    printf("%" PRId64 "\n", sum);
    free(bytes);
    return 0;
}
