/* Zelkhomur for C: docs/c-interface.md says what each function takes, answers and writes. */
#ifndef ZELKHOMUR_H
#define ZELKHOMUR_H

#include <stddef.h>
#include <stdint.h>

#ifdef __cplusplus
extern "C" {
#endif

/* kinds of chip */
#define ZELKHOMUR_RF5C68A 0
#define ZELKHOMUR_RF5C164 1

/* tags of records */
#define ZELKHOMUR_REGISTER 1
#define ZELKHOMUR_WINDOW 2
#define ZELKHOMUR_WAIT 3
#define ZELKHOMUR_BLOCK 4

/* why playing was left off */
#define ZELKHOMUR_FULL 0
#define ZELKHOMUR_END 2
#define ZELKHOMUR_FAULT 3

typedef struct {
    uint8_t refusal;
    uint8_t kind;
    uint32_t clock;
} zelkhomur_header;

typedef struct {
    uint8_t refusal;
    uint16_t fd;
} zelkhomur_fd_answer;

typedef struct {
    uint8_t tag;
    uint8_t byte;
    uint16_t value;
    size_t start;
    size_t count;
} zelkhomur_record;

typedef struct {
    uint8_t refusal;
    size_t length;
} zelkhomur_recorded;

typedef struct {
    uint32_t phase;
    int16_t left;
    int16_t right;
    uint8_t sounding;
    uint8_t env;
    uint8_t pan;
    uint8_t fdl;
    uint8_t fdh;
    uint8_t lsl;
    uint8_t lsh;
    uint8_t st;
} zelkhomur_voice;

typedef struct {
    zelkhomur_voice voices[8];
    uint8_t kind;
    uint8_t converter;
    uint8_t mutes;
    uint8_t on;
    uint8_t bank;
    uint8_t selected;
    uint8_t channel;
} zelkhomur_chip;

typedef struct {
    size_t place;
    size_t bit;
    uint16_t ticks;
    uint16_t address;
    uint8_t state;
    uint8_t number;
    uint8_t has_address;
} zelkhomur_player;

typedef struct {
    int16_t left[8];
    int16_t right[8];
} zelkhomur_contributions;

typedef struct {
    int16_t contributions[8];
    int32_t total;
    uint16_t word;
} zelkhomur_side;

typedef struct {
    zelkhomur_side left;
    zelkhomur_side right;
} zelkhomur_frame;

typedef struct {
    int32_t left;
    int32_t right;
} zelkhomur_totals;

typedef struct {
    uint16_t left;
    uint16_t right;
} zelkhomur_words;

typedef struct {
    uint8_t refusal;
    uint8_t byte;
} zelkhomur_read_answer;

typedef struct {
    size_t bit;
    uint16_t address;
    uint8_t progress;
    uint8_t number;
} zelkhomur_step_answer;

typedef struct {
    size_t ticks;
    zelkhomur_step_answer last;
} zelkhomur_played;

/* logs, and the pitch calculator; a refused recording or copy leaves the buffer as it was */
zelkhomur_header zelkhomur_check_header(const uint8_t *log, size_t log_length);
zelkhomur_fd_answer zelkhomur_fd(uint32_t frequency, uint32_t clock, uint32_t words);
zelkhomur_recorded zelkhomur_record_log(uint8_t kind, uint32_t clock, const zelkhomur_record *records,
                                        size_t records_count, const uint8_t *bytes, size_t bytes_length,
                                        uint8_t *buffer, size_t buffer_length);
zelkhomur_recorded zelkhomur_copy_log(const uint8_t *log, size_t log_length, uint8_t *buffer, size_t buffer_length);

/* chips */
zelkhomur_chip zelkhomur_new_chip(uint8_t kind, uint8_t converter, uint8_t mutes);
void zelkhomur_reset(zelkhomur_chip *chip);
uint8_t zelkhomur_write(zelkhomur_chip *chip, uint8_t *ram, size_t ram_length, const uint8_t *rom, size_t rom_length,
                        uint16_t address, uint8_t byte);
zelkhomur_read_answer zelkhomur_read(const zelkhomur_chip *chip, const uint8_t *ram, size_t ram_length,
                                     const uint8_t *rom, size_t rom_length, uint16_t address);
uint8_t zelkhomur_inspect(const zelkhomur_chip *chip, const uint8_t *ram, size_t ram_length, const uint8_t *rom,
                          size_t rom_length, uint16_t offset, uint8_t *buffer, size_t buffer_length);
uint8_t zelkhomur_tick(zelkhomur_chip *chip, const uint8_t *ram, size_t ram_length, const uint8_t *rom,
                       size_t rom_length, zelkhomur_frame *frame);
zelkhomur_contributions zelkhomur_tell(const zelkhomur_chip *chip);

/* players */
zelkhomur_player zelkhomur_new_player(void);
zelkhomur_played zelkhomur_play(zelkhomur_chip *chip, zelkhomur_player *player, const uint8_t *log, size_t log_length,
                                uint8_t *ram, size_t ram_length, const uint8_t *rom, size_t rom_length,
                                zelkhomur_totals *totals, size_t totals_count, zelkhomur_words *words,
                                size_t words_count);

#ifdef __cplusplus
}
#endif

#endif
