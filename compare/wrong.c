/* The library with a fault, which the variable WRONG names: a comparison must find each one. Linked before the library
   with each function wrapped. */
#include <stdlib.h>
#include <string.h>

#include "zelkhomur.h"

static int wrong(const char *fault) {
    const char *name = getenv("WRONG");
    return name && strcmp(name, fault) == 0;
}

zelkhomur_header __real_zelkhomur_check_header(const uint8_t *log, size_t log_length);

zelkhomur_header __wrap_zelkhomur_check_header(const uint8_t *log, size_t log_length) {
    zelkhomur_header answer = __real_zelkhomur_check_header(log, log_length);
    if (wrong("header") && answer.clock > 12000000) answer.clock--;
    return answer;
}

zelkhomur_fd_answer __real_zelkhomur_fd(uint32_t frequency, uint32_t clock, uint32_t words);

zelkhomur_fd_answer __wrap_zelkhomur_fd(uint32_t frequency, uint32_t clock, uint32_t words) {
    zelkhomur_fd_answer answer = __real_zelkhomur_fd(frequency, clock, words);
    if (wrong("pitch") && answer.fd == 65535) answer.fd--;
    return answer;
}

zelkhomur_recorded __real_zelkhomur_record_log(uint8_t kind, uint32_t clock, const zelkhomur_record *records,
                                               size_t records_count, const uint8_t *bytes, size_t bytes_length,
                                               uint8_t *buffer, size_t buffer_length);

zelkhomur_recorded __wrap_zelkhomur_record_log(uint8_t kind, uint32_t clock, const zelkhomur_record *records,
                                               size_t records_count, const uint8_t *bytes, size_t bytes_length,
                                               uint8_t *buffer, size_t buffer_length) {
    zelkhomur_recorded answer = __real_zelkhomur_record_log(kind, clock, records, records_count, bytes, bytes_length,
                                                            buffer, buffer_length);
    /* the byte behind the log, and what a refused recording leaves */
    if (wrong("recording behind") && answer.length && answer.length < buffer_length) buffer[answer.length] ^= 1;
    if (wrong("recording refused") && answer.refusal == 11 && buffer_length > 4) buffer[4] ^= 1;
    if (wrong("recording's header") && answer.refusal == 13 && buffer_length && buffer_length < 5) buffer[0] = 0x10;
    /* the log of the records before the refused one */
    if (wrong("recording's first records") && answer.refusal) {
        while (records_count-- && __real_zelkhomur_record_log(kind, clock, records, records_count, bytes, bytes_length,
                                                              buffer, buffer_length).refusal) continue;
    }
    if (wrong("longest recording") && answer.refusal == 13 && buffer_length > 16777216) buffer[16777215] ^= 1;
    return answer;
}

zelkhomur_recorded __real_zelkhomur_copy_log(const uint8_t *log, size_t log_length, uint8_t *buffer,
                                             size_t buffer_length);

zelkhomur_recorded __wrap_zelkhomur_copy_log(const uint8_t *log, size_t log_length, uint8_t *buffer,
                                             size_t buffer_length) {
    zelkhomur_recorded answer = __real_zelkhomur_copy_log(log, log_length, buffer, buffer_length);
    if (wrong("copy") && answer.refusal == 12) answer.refusal = 9;
    /* what a refused copy leaves: as much as there is room for, the log's header, and the last byte of the buffer */
    if (wrong("copy without room") && answer.refusal == 13) memcpy(buffer, log, buffer_length);
    if (wrong("copy's header") && answer.refusal == 9 && buffer_length > 4) memcpy(buffer, log, 4);
    if (wrong("copy a byte short") && answer.refusal == 13 && buffer_length + 1 == log_length)
        buffer[buffer_length - 1] = log[buffer_length - 1];
    return answer;
}

zelkhomur_chip __real_zelkhomur_new_chip(uint8_t kind, uint8_t converter, uint8_t mutes);

zelkhomur_chip __wrap_zelkhomur_new_chip(uint8_t kind, uint8_t converter, uint8_t mutes) {
    return __real_zelkhomur_new_chip(kind, converter, wrong("new chip") ? mutes & 0x7F : mutes);
}

void __real_zelkhomur_reset(zelkhomur_chip *chip);

void __wrap_zelkhomur_reset(zelkhomur_chip *chip) {
    if (!wrong("reset")) __real_zelkhomur_reset(chip);
}

uint8_t __real_zelkhomur_write(zelkhomur_chip *chip, uint8_t *ram, size_t ram_length, const uint8_t *rom,
                               size_t rom_length, uint16_t address, uint8_t byte);

uint8_t __wrap_zelkhomur_write(zelkhomur_chip *chip, uint8_t *ram, size_t ram_length, const uint8_t *rom,
                               size_t rom_length, uint16_t address, uint8_t byte) {
    uint8_t answer = __real_zelkhomur_write(chip, ram, ram_length, rom, rom_length, address, byte);
    if (wrong("write refused") && answer == 5) return 6;
    /* a byte further on, which only the memory shows */
    if (wrong("write further") && answer == 0 && address == 0x1000 && ram_length > 1) ram[ram_length - 1] ^= 1;
    return answer;
}

zelkhomur_read_answer __real_zelkhomur_read(const zelkhomur_chip *chip, const uint8_t *ram, size_t ram_length,
                                            const uint8_t *rom, size_t rom_length, uint16_t address);

zelkhomur_read_answer __wrap_zelkhomur_read(const zelkhomur_chip *chip, const uint8_t *ram, size_t ram_length,
                                            const uint8_t *rom, size_t rom_length, uint16_t address) {
    zelkhomur_read_answer answer = __real_zelkhomur_read(chip, ram, ram_length, rom, rom_length, address);
    if (wrong("position byte") && address == 0x1F && answer.byte == 0x12) answer.byte++;
    if (wrong("read") && answer.refusal == 4) answer.refusal = 3;
    return answer;
}

uint8_t __real_zelkhomur_inspect(const zelkhomur_chip *chip, const uint8_t *ram, size_t ram_length, const uint8_t *rom,
                                 size_t rom_length, uint16_t offset, uint8_t *buffer, size_t buffer_length);

uint8_t __wrap_zelkhomur_inspect(const zelkhomur_chip *chip, const uint8_t *ram, size_t ram_length, const uint8_t *rom,
                                 size_t rom_length, uint16_t offset, uint8_t *buffer, size_t buffer_length) {
    uint8_t answer = __real_zelkhomur_inspect(chip, ram, ram_length, rom, rom_length, offset, buffer, buffer_length);
    if (wrong("inspection") && answer == 13 && buffer_length) buffer[buffer_length - 1] ^= 1;
    return answer;
}

uint8_t __real_zelkhomur_tick(zelkhomur_chip *chip, const uint8_t *ram, size_t ram_length, const uint8_t *rom,
                              size_t rom_length, zelkhomur_frame *frame);

uint8_t __wrap_zelkhomur_tick(zelkhomur_chip *chip, const uint8_t *ram, size_t ram_length, const uint8_t *rom,
                              size_t rom_length, zelkhomur_frame *frame) {
    uint8_t answer = __real_zelkhomur_tick(chip, ram, ram_length, rom, rom_length, frame);
    if (wrong("total") && frame->left.total > 32767) frame->left.total = 32767;
    if (wrong("word") && frame->right.total < -32768) frame->right.word++;
    if (wrong("contribution") && frame->left.contributions[7] > 15000) frame->left.contributions[7]--;
    if (wrong("position") && chip->voices[7].sounding && chip->voices[7].phase % 2048 == 2047) chip->voices[7].phase++;
    if (wrong("frame of a refused tick") && answer) frame->left.total = 1;
    return answer;
}

zelkhomur_contributions __real_zelkhomur_tell(const zelkhomur_chip *chip);

zelkhomur_contributions __wrap_zelkhomur_tell(const zelkhomur_chip *chip) {
    zelkhomur_contributions told = __real_zelkhomur_tell(chip);
    if (wrong("tell") && !chip->on) told.right[0] = 0;
    return told;
}

zelkhomur_player __real_zelkhomur_new_player(void);

zelkhomur_player __wrap_zelkhomur_new_player(void) {
    zelkhomur_player player = __real_zelkhomur_new_player();
    if (wrong("new player")) player.place = 32;
    return player;
}

zelkhomur_played __real_zelkhomur_play(zelkhomur_chip *chip, zelkhomur_player *player, const uint8_t *log,
                                       size_t log_length, uint8_t *ram, size_t ram_length, const uint8_t *rom,
                                       size_t rom_length, zelkhomur_totals *totals, size_t totals_count,
                                       zelkhomur_words *words, size_t words_count);

zelkhomur_played __wrap_zelkhomur_play(zelkhomur_chip *chip, zelkhomur_player *player, const uint8_t *log,
                                       size_t log_length, uint8_t *ram, size_t ram_length, const uint8_t *rom,
                                       size_t rom_length, zelkhomur_totals *totals, size_t totals_count,
                                       zelkhomur_words *words, size_t words_count) {
    zelkhomur_played played = __real_zelkhomur_play(chip, player, log, log_length, ram, ram_length, rom, rom_length,
                                                    totals, totals_count, words, words_count);
    if (wrong("played total") && played.ticks > 99) totals[99].right++;
    if (wrong("played word") && played.ticks > 99) words[99].left ^= 1;
    if (wrong("item behind") && played.ticks < words_count) words[played.ticks].right ^= 1;
    if (wrong("end") && played.last.progress == ZELKHOMUR_END) played.last.bit++;
    if (wrong("fault's bit") && played.last.number == 5) played.last.bit++;
    if (wrong("fault's address") && played.last.number == 5 && played.last.address > 0x1000) played.last.address--;
    if (wrong("fault's number") && played.last.number == 10) played.last.number = 11;
    if (wrong("player") && player->state == 1 && player->ticks > 1) player->ticks--;
    return played;
}
