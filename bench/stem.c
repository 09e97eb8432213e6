/* What crates/stem does, for logs without faults, by a plain program with its own number printing, for comparison. */
#include <stdint.h>
#include <stdio.h>
#include <stdlib.h>
#include <unistd.h>

enum { PLACES = 65536, POSITIONS = 1 << 27, LONGEST_LINE = 24 };

struct voice {
    uint8_t registers[7];
    int rests;
    uint32_t position;
};

static uint8_t memory[PLACES];
static struct voice voices[8];
static uint8_t input[32769];
static uint8_t channel = 0xFF, on, bank, selected;
static size_t place = 32;
static char text[65536];
static size_t length;

static void flush(void) {
    for (size_t done = 0; done < length;) {
        ssize_t n = write(1, text + done, length - done);
        if (n <= 0) exit(1);
        done += (size_t)n;
    }
    length = 0;
}

static void put_number(int32_t number) {
    char digits[11];
    size_t n = sizeof digits;
    uint32_t rest = number < 0 ? -(uint32_t)number : (uint32_t)number;
    do digits[--n] = (char)('0' + rest % 10);
    while (rest /= 10);
    if (number < 0) digits[--n] = '-';
    while (n < sizeof digits) text[length++] = digits[n++];
}

static int32_t level(uint8_t byte, uint8_t env, uint8_t share) {
    int32_t size = (byte & 127) * env * share / 32;
    return byte & 128 ? size : -size;
}

static void tick(void) {
    int32_t left = 0, right = 0;
    for (int k = 0; k < 8; k++) {
        struct voice *v = &voices[k];
        const uint8_t *r = v->registers;
        if (!on || channel >> k & 1) {
            v->rests = 1;
            continue;
        }
        uint32_t p = v->rests ? r[6] * 524288u : (v->position + r[3] * 256u + r[2]) % POSITIONS;
        v->rests = 0;
        uint8_t byte = memory[p >> 11];
        if (byte == 0xFF) {
            p = (r[5] * 256u + r[4]) * 2048u;
            byte = memory[p >> 11];
        }
        v->position = p;
        left += level(byte, r[0], r[1] & 15);
        right += level(byte, r[0], r[1] >> 4);
    }
    if (length > sizeof text - LONGEST_LINE) flush();
    put_number(left);
    text[length++] = ' ';
    put_number(right);
    text[length++] = '\n';
}

static unsigned field(int bits) {
    unsigned number = 0;
    for (; bits > 0; bits--, place++) number = number * 2 + (input[1 + place / 8] >> (7 - place % 8) & 1);
    return number;
}

static void write_register(unsigned address, uint8_t byte) {
    if (address < 7) voices[selected].registers[address] = byte;
    if (address == 7) {
        on = byte >> 7;
        if (byte & 64) selected = byte & 7;
        else bank = byte & 15;
    }
    if (address == 8) channel = byte | input[0];
}

int main(void) {
    if (fread(input, 1, sizeof input, stdin) < 5) return 1;
    for (int k = 0; k < 8; k++) voices[k].rests = 1;
    for (;;) {
        unsigned address, count;
        switch (field(3)) {
        case 1:
            address = field(4);
            write_register(address, (uint8_t)field(8));
            break;
        case 2:
            address = field(12);
            memory[bank * 4096 + address] = (uint8_t)field(8);
            break;
        case 3:
            for (count = field(16); count > 0; count--) tick();
            break;
        case 4:
            address = field(12);
            count = field(12) + 1;
            place = (place + 7) / 8 * 8;
            for (; count > 0; count--) memory[bank * 4096 + address++] = (uint8_t)field(8);
            break;
        default:
            flush();
            return puts("end") < 0;
        }
    }
}
