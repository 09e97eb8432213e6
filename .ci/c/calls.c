// Calls of the C interface, and what each must answer.
#include <stdio.h>
#include <stdlib.h>
#include <string.h>

#include "zelkhomur.h"

// voice 1 at a byte of C0H, two ticks, and the end
static const uint8_t LOG[] = {0x10, 0x98, 0x96, 0x80, 0x2F, 0x80, 0x42, 0x00, 0x88,
                              0x91, 0x8F, 0xE4, 0x00, 0x18, 0x0C, 0x00, 0x08, 0x00};

static uint8_t ram[65536];

static void expect(int holds, const char *what) {
    if (!holds) {
        printf("ci: c: %s\n", what);
        exit(1);
    }
}

static void check_headers(void) {
    zelkhomur_header header = zelkhomur_check_header(LOG, sizeof LOG);
    expect(header.refusal == 0 && header.kind == ZELKHOMUR_RF5C68A && header.clock == 10000000, "a header");
    expect(zelkhomur_check_header(LOG, 3).refusal == 7, "a short header");
    expect(zelkhomur_check_header(LOG + 1, 8).refusal == 8, "a wrong header");
}

static void check_pitches(void) {
    zelkhomur_fd_answer answer = zelkhomur_fd(44000, 10000000, 256);
    expect(answer.refusal == 0 && answer.fd == 8858, "an FD");
    expect(zelkhomur_fd(2000001, 10000000, 256).refusal == 14, "a frequency out of range");
    expect(zelkhomur_fd(2000000, 1, 65536).refusal == 15, "a tone too high");
}

static void check_recordings(void) {
    const uint8_t bytes[] = {0xC0, 0xFF};
    const zelkhomur_record records[] = {
        {.tag = ZELKHOMUR_REGISTER, .value = 7, .byte = 0x80},
        {.tag = ZELKHOMUR_WINDOW, .value = 0, .byte = 0xC0},
        {.tag = ZELKHOMUR_WAIT, .value = 2},
        {.tag = ZELKHOMUR_BLOCK, .value = 1, .start = 0, .count = 2},
    };
    const uint8_t expected[] = {0x10, 0x98, 0x96, 0x80, 0x2F, 0x00, 0x80, 0x03, 0x01,
                                0x80, 0x01, 0x40, 0x01, 0x00, 0x10, 0xC0, 0xFF, 0x00};
    uint8_t buffer[32];
    memset(buffer, 0x55, sizeof buffer);
    zelkhomur_recorded recorded =
        zelkhomur_record_log(ZELKHOMUR_RF5C68A, 10000000, records, 4, bytes, sizeof bytes, buffer, sizeof buffer);
    expect(recorded.refusal == 0 && recorded.length == sizeof expected, "a recording");
    expect(memcmp(buffer, expected, sizeof expected) == 0, "the bytes of a recording");
    expect(buffer[sizeof expected] == 0x55, "the byte behind a recording");

    const zelkhomur_record wrong[] = {{.tag = ZELKHOMUR_REGISTER, .value = 9}};
    expect(zelkhomur_record_log(0, 10000000, wrong, 1, bytes, 0, buffer, sizeof buffer).refusal == 11, "a wrong record");
    expect(zelkhomur_record_log(0, 10000001, wrong, 0, bytes, 0, buffer, sizeof buffer).refusal == 8, "a wrong clock");
    expect(zelkhomur_record_log(0, 10000000, records, 4, bytes, 2, buffer, 17).refusal == 13, "a short buffer");
    expect(zelkhomur_record_log(1, 10000000, records, 4, bytes, 1, buffer, 17).refusal == 11, "a block not lent");
    expect(zelkhomur_copy_log(LOG, 17, buffer, sizeof buffer).refusal == 9, "a cut log");
    expect(memcmp(buffer, expected, sizeof expected) == 0, "the buffer after refusals");

    recorded = zelkhomur_copy_log(LOG, sizeof LOG, buffer, sizeof buffer);
    expect(recorded.refusal == 0 && recorded.length == sizeof LOG && memcmp(buffer, LOG, sizeof LOG) == 0, "a copy");
}

// The example log, so many ticks at a time.
static void check_play(size_t room) {
    zelkhomur_chip chip = zelkhomur_new_chip(ZELKHOMUR_RF5C68A, 10, 0);
    zelkhomur_player player = zelkhomur_new_player();
    zelkhomur_totals totals[4] = {{0, 0}};
    zelkhomur_words words[4] = {{0, 0}};
    zelkhomur_played played;
    size_t ticks = 0;
    memset(ram, 0, sizeof ram);
    do {
        size_t more = room < 4 - ticks ? room : 4 - ticks;
        played = zelkhomur_play(&chip, &player, LOG, sizeof LOG, ram, 32768, ram + 32768, 32768, totals + ticks, more,
                                words + ticks, more);
        ticks += played.ticks;
    } while (played.last.progress == ZELKHOMUR_FULL);
    expect(ticks == 2 && played.last.progress == ZELKHOMUR_END && played.last.bit == 134, "the end of a log");
    for (size_t i = 0; i < 2; i++) {
        expect(totals[i].left == 512 && totals[i].right == 256, "the totals of a tick");
        expect(words[i].left == 520 && words[i].right == 516, "the words of a tick");
    }
    expect(totals[2].left == 0 && words[2].left == 0, "the buffers behind the last tick");
    expect(ram[0] == 0xC0, "the RAM after a log");
}

static void check_faults(void) {
    zelkhomur_chip chip = zelkhomur_new_chip(ZELKHOMUR_RF5C68A, 16, 0);
    zelkhomur_player player = zelkhomur_new_player();
    zelkhomur_totals totals[4];
    zelkhomur_words words[4];
    zelkhomur_played played =
        zelkhomur_play(&chip, &player, LOG, sizeof LOG, ram, 0, ram, 65536, totals, 4, words, 4);
    expect(played.ticks == 0 && played.last.progress == ZELKHOMUR_FAULT && played.last.number == 5, "a write to ROM");
    expect(played.last.address == 0x1000, "the address of a fault");
}

static void check_chip(void) {
    zelkhomur_chip chip = zelkhomur_new_chip(ZELKHOMUR_RF5C164, 16, 0);
    zelkhomur_frame frame;
    uint8_t shown[2] = {0, 0};
    memset(ram, 0, sizeof ram);
    expect(zelkhomur_write(&chip, ram, 65535, ram, 0, 0x1000, 0xC0) == 1, "a memory of another size");
    expect(zelkhomur_write(&chip, ram, 65536, ram, 0, 0x2000, 0xC0) == 2, "an address beyond the port");
    expect(zelkhomur_write(&chip, ram, 65536, ram, 0, 0x1001, 0xC0) == 0 && ram[1] == 0xC0, "a write");
    expect(zelkhomur_inspect(&chip, ram, 65536, ram, 0, 0, shown, 2) == 0 && shown[1] == 0xC0, "an inspection");
    expect(zelkhomur_inspect(&chip, ram, 65536, ram, 0, 4095, shown, 2) == 13, "an inspection past the window");
    expect(zelkhomur_read(&chip, ram, 65536, ram, 0, 0x1001).byte == 0xC0, "a read");
    zelkhomur_write(&chip, ram, 65536, ram, 0, 1, 0x12);
    zelkhomur_write(&chip, ram, 65536, ram, 0, 0, 128);
    zelkhomur_write(&chip, ram, 65536, ram, 0, 8, 0xFE);
    zelkhomur_write(&chip, ram, 65536, ram, 0, 7, 0x80);
    ram[0] = 0xC0;
    expect(zelkhomur_tick(&chip, ram, 65536, ram, 0, &frame) == 0, "a tick");
    expect(frame.left.total == 512 && frame.right.total == 256 && frame.left.word == 512, "a frame");
    expect(frame.left.contributions[0] == 512 && frame.left.contributions[1] == 0, "contributions");
    expect(zelkhomur_tell(&chip).right[0] == 256, "what is told");
    expect(zelkhomur_read(&chip, ram, 65536, ram, 0, 0x1000).refusal == 4, "a read while it sounds");
    zelkhomur_reset(&chip);
    expect(zelkhomur_tell(&chip).right[0] == 0 && chip.on == 0, "a reset");
}

int main(void) {
    check_headers();
    check_pitches();
    check_recordings();
    check_play(4);
    check_play(1);
    check_faults();
    check_chip();
    return 0;
}
