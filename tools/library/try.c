/* Tries the library as a program that links it: the header's two examples, every function at its emptiest, the reference C's names beside
   them, and the words of refusals. Prints how many things held, or the first that did not with status 1. */
#include "tromvask.h"
#include "tromvask.h"
#include <math.h>
#include <stdio.h>
#include <stdlib.h>
#include <string.h>

static int held;
#define HOLDS(thing) do { if (!(thing)) { printf("line %d: not so: %s\n", __LINE__, #thing); exit(1); } held++; } while (0)

/* The reference C's functions, of which none may be the library's. */
#define THEIRS(name) int name(void); int name(void) { return 1; }
THEIRS(qoa_encode) THEIRS(qoa_encode_frame) THEIRS(qoa_encode_header) THEIRS(qoa_max_frame_size) THEIRS(qoa_decode)
THEIRS(qoa_decode_header) THEIRS(qoa_decode_frame) THEIRS(qoa_read) THEIRS(qoa_write)

/* What the examples call: 12000 samples of two channels are recorded into a file in memory, then played. */
#define COUNT 24000
static int16_t given[COUNT], heard[COUNT + 1], whole[COUNT];
static uint8_t file[20000];
static size_t next, saved, played;

static void play(const int16_t *samples, size_t count)
{
    HOLDS(played + count <= COUNT);
    memcpy(heard + played, samples, 2 * count);
    played += count;
}

static void save(const uint8_t *bytes, size_t count)
{
    HOLDS(saved + count <= sizeof file);
    memcpy(file + saved, bytes, count);
    saved += count;
}

static const int16_t *next_samples(size_t n)
{
    next += 2 * n;
    return given + next - 2 * n;
}

int64_t play_file(const uint8_t *bytes, size_t length, uint8_t *state, size_t size);
int64_t record(uint8_t channels, uint32_t rate, uint32_t total, uint8_t *state, size_t size, uint8_t *out, size_t room);
#include "examples.inc"

static void examples(void)
{
    size_t size = (size_t)qoa_encoder_size(), room = (size_t)qoa_encode_need(2, QOA_FULL_FRAME), states = (size_t)qoa_decoder_size();
    uint8_t *out = (uint8_t *)malloc(room), *encoder = (uint8_t *)malloc(size), *decoder = (uint8_t *)malloc(states);
    int64_t item;
    uint32_t facts[3];
    HOLDS(out && encoder && decoder);
    for (size_t i = 0; i < COUNT; i++)
        given[i] = (int16_t)(i * i % 20011 - 10005);
    HOLDS(record(2, 44100, COUNT / 2, encoder, size, out, room) == 0);
    HOLDS(next == COUNT && (int64_t)saved == qoa_encode_need(2, COUNT / 2));
    HOLDS(play_file(file, saved, decoder, states) == 0);
    HOLDS(played == COUNT && qoa_decode_all(file, saved, whole, COUNT) == COUNT && memcmp(heard, whole, sizeof whole) == 0);
    HOLDS(qoa_facts_total(file, saved) == qoa_decode_need(file, saved) / qoa_channels(file, saved));
    HOLDS(record(9, 44100, COUNT / 2, encoder, size, out, room) == -11);
    played = 0;
    HOLDS(play_file(file, saved - 1, decoder, states) == -5 && play_file(out, 0, decoder, states) == -5);
    /* items, and reading their answers */
    HOLDS(qoa_decoder_open(file, saved, decoder, states) == 0);
    item = qoa_decoder_next_item(file, saved, decoder, states);
    HOLDS(QOA_IS_HEADER(item) && !QOA_IS_SAMPLE(item) && QOA_FRAME_CHANNELS(item) == 2);
    HOLDS(QOA_FRAME_RATE(item) == 44100 && QOA_FRAME_SAMPLES(item) == QOA_FULL_FRAME);
    for (size_t i = 0; i < 100; i++) {
        item = qoa_decoder_next_item(file, saved, decoder, states);
        HOLDS(!QOA_IS_HEADER(item) && QOA_IS_SAMPLE(item) && QOA_SAMPLE(item) == whole[i]);
    }
    item = qoa_decoder_next_frame(file, saved, decoder, states);
    HOLDS(QOA_FRAME_CHANNELS(item) == 2 && QOA_FRAME_RATE(item) == 44100 && QOA_FRAME_SAMPLES(item) == QOA_FULL_FRAME);
    HOLDS(qoa_decoder_facts(file, saved, decoder, states, facts, 3) == 0);
    HOLDS(facts[0] == COUNT / 2 && facts[1] == 2 && facts[2] == 44100);
    HOLDS(qoa_decoder_seconds(file, saved, decoder, states) == qoa_facts_seconds(file, saved));
    HOLDS(fabs(qoa_decoder_seconds(file, saved, decoder, states) - COUNT / 2 / 44100.0) < 1e-12);
    HOLDS(qoa_decoder_seconds(file, saved, decoder, states - 1) == -8.0);
    /* a whole file from a state */
    HOLDS(qoa_encoder_new(2, 44100, COUNT / 2, encoder, size) == 0);
    {
        size_t need = saved;
        uint8_t *again = (uint8_t *)malloc(need);
        HOLDS(again && qoa_encoder_file(encoder, size, given, COUNT, again, need) == (int64_t)need && memcmp(again, file, need) == 0);
        free(again);
    }
    free(out);
    free(encoder);
    free(decoder);
}

/* No memory where there is nothing: NULL with a length of 0. */
static void nothing(void)
{
    int16_t none = 0;
    HOLDS(qoa_decode_all(NULL, 0, NULL, 0) == -5 && qoa_decode_need(NULL, 0) == -5);
    HOLDS(qoa_channels(NULL, 0) == -5 && qoa_rate(NULL, 0) == -5 && qoa_decode_frames(NULL, 0, NULL, 0) == 0);
    HOLDS(qoa_part_length(NULL, 0, 0) == -5 && qoa_part_length(NULL, 0, SIZE_MAX) == -5);
    HOLDS(qoa_facts_total(NULL, 0) == -5 && qoa_facts_channels(NULL, 0) == -5 && qoa_facts_rate(NULL, 0) == -5);
    HOLDS(qoa_facts_seconds(NULL, 0) == -5.0);
    HOLDS(qoa_encode_all(1, 1, 1, NULL, 0, NULL, 0) == -13 && qoa_encode_all(1, 1, 1, &none, 1, NULL, 0) == -7);
    HOLDS(qoa_encode_need(0, 1) == -11 && qoa_encode_need(1, 0) == -13 && qoa_encode_need(1, 1) == 40);
    HOLDS(qoa_decoder_open(NULL, 0, NULL, 0) == -5 && qoa_decoder_into(NULL, 0, NULL, 0, NULL, 0) == -8);
    HOLDS(qoa_decoder_next_frame(NULL, 0, NULL, 0) == -8 && qoa_decoder_next_item(NULL, 0, NULL, 0) == -8);
    HOLDS(qoa_decoder_facts(NULL, 0, NULL, 0, NULL, 0) == -8 && qoa_decoder_seconds(NULL, 0, NULL, 0) == -8.0);
    HOLDS(qoa_encoder_new(0, 0, 0, NULL, 0) == -11 && qoa_encoder_new(1, 0, 0, NULL, 0) == -12);
    HOLDS(qoa_encoder_new(1, 1, 0, NULL, 0) == -13 && qoa_encoder_new(1, 1, 1, NULL, 0) == -7);
    HOLDS(qoa_encoder_header(NULL, 0, NULL, 0) == -8 && qoa_encoder_frame(NULL, 0, NULL, 0, NULL, 0) == -8);
    HOLDS(qoa_encoder_file(NULL, 0, NULL, 0, NULL, 0) == -8);
}

static void words(void)
{
    const char *unknown = qoa_refusal_words(0);
    for (int64_t n = -20; n < 20; n++) {
        int known = n >= 1 && n <= 14 && n != 10;
        HOLDS((strcmp(qoa_refusal_words(n), unknown) != 0) == known);
        for (int64_t m = 1; known && m < n; m++)
            HOLDS(strcmp(qoa_refusal_words(n), qoa_refusal_words(m)) != 0);
    }
    HOLDS(strcmp(qoa_refusal_words(INT64_MIN), unknown) == 0 && strcmp(qoa_refusal_words(INT64_MAX), unknown) == 0);
    HOLDS(strcmp(qoa_refusal_words(QOA_REFUSAL(-6)), "too many channels") == 0 && QOA_REFUSAL(-8.0) == 8);
    HOLDS(QOA_REFUSAL(-(14 + 256 * 3 + 65536LL * 2080)) == 14 && QOA_CHANNEL(-(14 + 256 * 3 + 65536LL * 2080)) == 3);
    HOLDS(QOA_WRITTEN(-(14 + 256 * 3 + 65536LL * 2080)) == 2080);
    HOLDS(QOA_SAMPLE((1LL << 61) + 0x8000) == INT16_MIN && QOA_SAMPLE((1LL << 61) + 0x7fff) == INT16_MAX && QOA_SAMPLE((1LL << 61) + 0xffff) == -1);
    HOLDS(QOA_FRAME_RATE((1LL << 60) + (0xffffffffLL << 16)) == UINT32_MAX);
}

int main(void)
{
    examples();
    nothing();
    words();
    HOLDS(qoa_encode() + qoa_encode_frame() + qoa_encode_header() + qoa_max_frame_size() + qoa_decode() + qoa_decode_header()
        + qoa_decode_frame() + qoa_read() + qoa_write() == 9);
    printf("tromvask %d.%d.%d: %d things hold\n", TROMVASK_VERSION_MAJOR, TROMVASK_VERSION_MINOR, TROMVASK_VERSION_PATCH, held);
    return 0;
}
