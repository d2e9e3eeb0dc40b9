/* Converts between QOA and raw samples (16 bits, lower byte first, channels interleaved). A recording may be of any length: a block
   of samples or a frame of them is in memory at a time, and a QOA file is mapped.
     convert decode IN.qoa OUT.raw
     convert encode CHANNELS RATE IN.raw OUT.qoa
   Status 0, or 1 with the reason on standard error. What is written goes to OUT.part, which becomes OUT when all is done. After an
   error OUT is what it was, and what was converted up to there stays in OUT.part. */
#define _POSIX_C_SOURCE 200809L
#define _FILE_OFFSET_BITS 64
#include "tromvask.h"
#include <fcntl.h>
#include <stdio.h>
#include <stdlib.h>
#include <string.h>
#include <sys/mman.h>
#include <sys/stat.h>
#include <unistd.h>

#define BLOCK 4096

static int fail(const char *what, const char *why)
{
    fprintf(stderr, "convert: %s: %s\n", what, why);
    return 1;
}

static int refused(const char *what, int64_t answer)
{
    return fail(what, qoa_refusal_words(QOA_REFUSAL(answer)));
}

/* ---- the output ---- */

struct output {
    const char *path;
    char part[4096];
    FILE *file;
    int64_t bytes;
};

static int begin(struct output *out, const char *path)
{
    struct stat there;
    memset(out, 0, sizeof *out);
    out->path = path;
    if (stat(path, &there) == 0 && !S_ISREG(there.st_mode))
        return fail(path, "is there, and is no regular file");
    if ((size_t)snprintf(out->part, sizeof out->part, "%s.part", path) >= sizeof out->part)
        return fail(path, "is too long a name");
    out->file = fopen(out->part, "wb");
    return out->file ? 0 : fail(out->part, "can't be written");
}

static int put(struct output *out, const uint8_t *bytes, size_t count)
{
    if (fwrite(bytes, 1, count, out->file) != count)
        return fail(out->part, "can't be written to its end");
    out->bytes += (int64_t)count;
    return 0;
}

/* The output takes its name, or after an error keeps the other where anything is in it. */
static int finish(struct output *out, int failed)
{
    if (fclose(out->file) != 0 && !failed)
        failed = fail(out->part, "can't be written to its end");
    if (!failed)
        return rename(out->part, out->path) == 0 ? 0 : fail(out->path, "can't be written");
    if (out->bytes == 0)
        remove(out->part);
    else
        fprintf(stderr, "convert: %lld bytes up to there are in %s\n", (long long)out->bytes, out->part);
    return 1;
}

/* ---- decoding ---- */

struct decoder {
    const uint8_t *bytes;
    size_t length;
    uint8_t *state;
    size_t size;
    uint32_t facts[3]; /* total, channels, rate */
    int64_t samples;
};

static int open_file(struct decoder *d, const char *path)
{
    struct stat facts;
    int file = open(path, O_RDONLY);
    memset(d, 0, sizeof *d);
    if (file < 0 || fstat(file, &facts) != 0 || !S_ISREG(facts.st_mode))
        return fail(path, "can't be read");
    d->length = (size_t)facts.st_size;
    if (d->length > 0) { /* no bytes need no memory */
        void *mapped = mmap(NULL, d->length, PROT_READ, MAP_PRIVATE, file, 0);
        if (mapped == MAP_FAILED)
            return fail(path, "can't be mapped");
        d->bytes = mapped;
    }
    close(file);
    d->size = (size_t)qoa_decoder_size();
    d->state = malloc(d->size);
    if (!d->state)
        return fail(path, "not enough memory");
    int64_t answer = qoa_decoder_open(d->bytes, d->length, d->state, d->size);
    if (answer < 0)
        return refused(path, answer);
    qoa_decoder_facts(d->bytes, d->length, d->state, d->size, d->facts, 3);
    return 0;
}

/* A stream's frames may differ in channels or rate; raw samples can't tell, so that is refused as it is for a whole file. */
static int64_t next_frame(struct decoder *d)
{
    int64_t frame = qoa_decoder_next_frame(d->bytes, d->length, d->state, d->size);
    if (frame <= 0)
        return frame < 0 || d->facts[1] > 0 ? frame : -2;
    if (d->facts[1] == 0) {
        d->facts[1] = (uint32_t)QOA_FRAME_CHANNELS(frame);
        d->facts[2] = QOA_FRAME_RATE(frame);
    }
    return d->facts[1] == (uint32_t)QOA_FRAME_CHANNELS(frame) && d->facts[2] == QOA_FRAME_RATE(frame) ? frame : -4;
}

static int decode_frames(struct decoder *d, const char *from, struct output *out)
{
    int16_t block[BLOCK];
    uint8_t raw[2 * BLOCK];
    for (;;) {
        int64_t got = qoa_decoder_into(d->bytes, d->length, d->state, d->size, block, BLOCK);
        for (int64_t i = 0; i < got; i++) {
            raw[2 * i] = (uint8_t)((uint16_t)block[i] & 0xff);
            raw[2 * i + 1] = (uint8_t)((uint16_t)block[i] >> 8);
        }
        if (got > 0 && put(out, raw, 2 * (size_t)got))
            return 1;
        d->samples += got > 0 ? got : 0;
        if (got >= 0 && got < BLOCK && (got = next_frame(d)) == 0)
            return 0;
        if (got < 0)
            return refused(from, got);
    }
}

static int decode(const char *from, const char *to)
{
    struct decoder d;
    struct output out;
    if (open_file(&d, from) || begin(&out, to) || finish(&out, decode_frames(&d, from, &out)))
        return 1;
    printf("%s: %lld samples, %u channels at %u Hz\n", to, (long long)d.samples, (unsigned)d.facts[1], (unsigned)d.facts[2]);
    if (d.facts[0] != 0 && d.facts[0] != d.samples / d.facts[1])
        fprintf(stderr, "convert: %s: its header tells of %lu samples per channel, and %lld are there\n", from, (unsigned long)d.facts[0],
                (long long)(d.samples / d.facts[1]));
    free(d.state);
    return 0;
}

/* ---- encoding ---- */

struct encoder {
    FILE *file;
    uint8_t channels;
    uint32_t total;
    uint8_t *state, *raw, *bytes;
    int16_t *samples;
    size_t size, room;
};

/* The total must be known first: it is the file's length. */
static int open_samples(struct encoder *e, const char *path, unsigned long channels, uint32_t rate)
{
    struct stat facts;
    memset(e, 0, sizeof *e);
    e->file = fopen(path, "rb");
    if (!e->file || fstat(fileno(e->file), &facts) != 0 || !S_ISREG(facts.st_mode))
        return fail(path, "can't be read");
    uint64_t wide = 2 * (uint64_t)channels, total = (uint64_t)facts.st_size / wide;
    if ((uint64_t)facts.st_size % wide != 0)
        return refused(path, -13);
    if (total > UINT32_MAX)
        return fail(path, "too many samples for one file");
    e->channels = (uint8_t)channels;
    e->total = (uint32_t)total;
    e->size = (size_t)qoa_encoder_size();
    e->state = malloc(e->size);
    if (!e->state)
        return fail(path, "not enough memory");
    int64_t answer = qoa_encoder_new(e->channels, rate, e->total, e->state, e->size);
    if (answer < 0)
        return refused(path, answer);
    e->room = (size_t)qoa_encode_need(e->channels, QOA_FULL_FRAME);
    e->bytes = malloc(e->room);
    e->raw = malloc(wide * QOA_FULL_FRAME);
    e->samples = malloc(wide * QOA_FULL_FRAME);
    return e->bytes && e->raw && e->samples ? 0 : fail(path, "not enough memory");
}

static int encode_frames(struct encoder *e, const char *from, struct output *out)
{
    int64_t got = qoa_encoder_header(e->state, e->size, e->bytes, e->room);
    uint32_t left = e->total;
    while (got > 0) {
        if (put(out, e->bytes, (size_t)got))
            return 1;
        if (left == 0)
            return 0;
        size_t n = left < QOA_FULL_FRAME ? left : QOA_FULL_FRAME, count = n * e->channels;
        if (fread(e->raw, 2, count, e->file) != count)
            return fail(from, "can't be read to its end");
        for (size_t i = 0; i < count; i++)
            e->samples[i] = (int16_t)(uint16_t)(e->raw[2 * i] | e->raw[2 * i + 1] << 8);
        got = qoa_encoder_frame(e->state, e->size, e->samples, count, e->bytes, e->room);
        left -= (uint32_t)n;
    }
    return refused(from, got);
}

static int encode(const char *channels, const char *rate, const char *from, const char *to)
{
    struct encoder e;
    struct output out;
    char *end, *rest;
    unsigned long c = strtoul(channels, &end, 10);
    unsigned long long hz = strtoull(rate, &rest, 10);
    if (*end != 0 || c == 0 || c > UINT8_MAX)
        return refused(channels, -11);
    if (*rest != 0 || hz > UINT32_MAX)
        return refused(rate, -12);
    if (open_samples(&e, from, c, (uint32_t)hz) || begin(&out, to) || finish(&out, encode_frames(&e, from, &out)))
        return 1;
    printf("%s: %lld bytes\n", to, (long long)out.bytes);
    fclose(e.file);
    free(e.samples);
    free(e.raw);
    free(e.bytes);
    free(e.state);
    return 0;
}

int main(int argc, char **argv)
{
    if (argc == 4 && strcmp(argv[1], "decode") == 0)
        return decode(argv[2], argv[3]);
    if (argc == 6 && strcmp(argv[1], "encode") == 0)
        return encode(argv[2], argv[3], argv[4], argv[5]);
    return fail("usage", "decode IN.qoa OUT.raw, or encode CHANNELS RATE IN.raw OUT.qoa");
}
