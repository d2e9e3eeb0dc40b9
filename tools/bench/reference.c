/* The reference C (qoa.h, which is no part of this repository) for bench.rs: whole files, decoded into lent memory and encoded. */
#define QOA_IMPLEMENTATION
#define QOA_NO_STDIO
#include "qoa.h"

long reference_decode(const unsigned char *bytes, unsigned long length, short *out) {
    qoa_desc file;
    unsigned int at = qoa_decode_header(bytes, (int)length, &file);
    unsigned long done = 0;
    while (done < file.samples) {
        unsigned int count = 0;
        unsigned int used = qoa_decode_frame(bytes + at, length - at, &file, out + done * file.channels, &count);
        if (used == 0) {
            return -1;
        }
        at += used;
        done += count;
    }
    return (long)(done * file.channels);
}

long reference_encode(unsigned int channels, unsigned int samples, const short *from) {
    qoa_desc file = {0};
    unsigned int length = 0;
    file.channels = channels;
    file.samplerate = 44100;
    file.samples = samples;
    void *bytes = qoa_encode(from, &file, &length);
    if (bytes == 0) {
        return -1;
    }
    QOA_FREE(bytes);
    return (long)length;
}
