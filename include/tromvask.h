/* Tromvask: a proved QOA codec.

   `bash tools/library/build.sh` makes libtromvask.a and libtromvask.so. They need memcpy and memset of C's library and nothing
   else: no heap, no files, no locks, no memory of their own. So any thread may call any function, on memory of its own.

   Numbers and bytes may be any: what can't be read or done is refused. What is asked of the caller is memory that is there:

     - A list is a pointer and a length in elements. It lies within one object of C, so it has at most PTRDIFF_MAX bytes. A room
       is what there really is: SIZE_MAX as a "no limit" is no room, and memory would be overwritten.
     - The pointer is aligned for its elements. Where the length is 0 it may be NULL.
     - A list that is written (out, state, facts) overlaps no other list of the call.

   An answer is 0 or more, or minus the number of a refusal (`QOA_REFUSAL(answer)`, in words `qoa_refusal_words(number)`):

      1 not a QOA file              6 too many channels            12 a rate that can't be stored (encoder)
      2 no frame in the file        7 the output is too small      13 samples that don't fit what was declared (encoder)
      3 a bad frame header          8 a bad state                  14 a weight of the predictor left its range (encoder):
      4 a frame unlike the first    9 the file is too long            its answer holds more, see qoa_encode_all
      5 cut short                  11 channels that can't be stored (encoder)

   A refused call changes no lent memory (14 of a whole file aside: qoa_encode_all). An accepted call touches nothing past what
   it reports. Samples have 16 bits, channels interleaved; a total is a number of samples per channel.

   A FILE THAT WAS CUT BETWEEN TWO FRAMES IS ACCEPTED: the total in its header is compared with nothing. Who wants to know compares
   qoa_facts_total with qoa_decode_need divided by qoa_channels: a whole file has them equal. (A stream, of total 0, can't tell.) */
#ifndef TROMVASK_H
#define TROMVASK_H

#include <stddef.h>
#include <stdint.h>

#define TROMVASK_VERSION_MAJOR 0
#define TROMVASK_VERSION_MINOR 1
#define TROMVASK_VERSION_PATCH 0

#ifdef __cplusplus
extern "C" {
#endif

/* ---- A whole file at once ---- */

/* Decodes a whole file. Counts samples over all channels. A file over 4294967295 bytes is refused (9): decode it by a state. */
int64_t qoa_decode_all(const uint8_t *bytes, size_t length, int16_t *out, size_t room);

/* What qoa_decode_all would answer with room enough. All frames are checked by their headers, none is decoded. */
int64_t qoa_decode_need(const uint8_t *bytes, size_t length);

/* Channels and rate in Hz of a file that decodes. */
int64_t qoa_channels(const uint8_t *bytes, size_t length);
int64_t qoa_rate(const uint8_t *bytes, size_t length);

/* What a file says of itself at its start, slices unread: the declared total, and the first frame's channels and rate. A total
   of 0 is a stream, of which no frame is read: its channels and rate are 0 too. */
int64_t qoa_facts_total(const uint8_t *bytes, size_t length);
int64_t qoa_facts_channels(const uint8_t *bytes, size_t length);
int64_t qoa_facts_rate(const uint8_t *bytes, size_t length);

/* Total over rate, rounded once. A stream has no length and gives 0.0, which no other file does; a refusal is minus its number. */
double qoa_facts_seconds(const uint8_t *bytes, size_t length);

/* Encodes total times channels samples as a whole file. Counts bytes. Refusal 14: before a frame a weight of the predictor of a
   channel (counted from 0) had left its 16 bits. Then the answer is -(14 + 256 * channel + 65536 * bytes), and the output starts
   with that many bytes: the file header and all frames before that one. */
int64_t qoa_encode_all(uint8_t channels, uint32_t rate, uint32_t total, const int16_t *samples, size_t count, uint8_t *out,
                       size_t room);

/* The exact number of bytes of such a file. */
int64_t qoa_encode_need(uint8_t channels, uint32_t total);

/* ---- Frames without a file ---- */

/* Decodes whole frames one after another, without a file header; channels and rate may change. Counts samples over all
   channels. There are never more than 5 samples for 2 bytes. Bytes left over are -5; no bytes give no samples. */
int64_t qoa_decode_frames(const uint8_t *bytes, size_t length, int16_t *out, size_t room);

/* The length in bytes of the whole good frame that starts at byte `at`. */
int64_t qoa_part_length(const uint8_t *bytes, size_t length, size_t at);

/* ---- Decoding piece by piece ----

   A decoder's state is a block of bytes that the caller lends: qoa_decoder_size() of them. What stands in it is the library's own
   affair. A block may be copied (the copy decodes on from the same place) and kept while the program runs, but it is no file: its
   size and layout are those of the library that wrote it. So ask for the size, and pass it as the block's length. Each of these
   calls first refuses (8) a block of another length, or with numbers that no state has. A block that was damaged and still looks
   like a state gives other samples; it never makes a call touch other memory.

   `bytes` is the whole file, the same in every call (mapped, say: only what is decoded next is read).

     // Plays a file in blocks of 4096 samples; state has size = qoa_decoder_size() bytes. 0, or minus the number of a refusal.
     int64_t play_file(const uint8_t *bytes, size_t length, uint8_t *state, size_t size)
     {
         int16_t block[4096];
         int64_t got = qoa_decoder_open(bytes, length, state, size);
         while (got >= 0) {
             got = qoa_decoder_into(bytes, length, state, size, block, 4096);
             if (got > 0)
                 play(block, (size_t)got);
             if (got >= 0 && got < 4096) {
                 got = qoa_decoder_next_frame(bytes, length, state, size);
                 if (got == 0)
                     return 0;
             }
         }
         return got;
     } */
int64_t qoa_decoder_size(void);

/* Writes the state of a decoder at the start of a file: 0, or why the file can't be opened. The block may be longer than
   qoa_decoder_size(), and stays as it is past that; a shorter one is refused (7) after all else. */
int64_t qoa_decoder_open(const uint8_t *bytes, size_t length, uint8_t *state, size_t size);

/* Decodes samples of the current frame: as many as there are or fit. Counts them over all channels. Fewer than `room` means that
   the frame is done: qoa_decoder_next_frame goes on. A stream (total 0) starts before its first frame: 0 samples. */
int64_t qoa_decoder_into(const uint8_t *bytes, size_t length, uint8_t *state, size_t size, int16_t *out, size_t room);

/* On to the next frame, over whatever is left of this one. 0 at the end of the file, again and again; else the frame's
   channels, rate and samples per channel: QOA_FRAME_CHANNELS(answer), QOA_FRAME_RATE(answer), QOA_FRAME_SAMPLES(answer). In a
   stream each frame may have its own channels and rate. */
int64_t qoa_decoder_next_frame(const uint8_t *bytes, size_t length, uint8_t *state, size_t size);

/* The next item: 0 at the end of the file; QOA_IS_HEADER(answer) where a frame begins, with its numbers as above (first of all
   the frame that qoa_decoder_open read; in a stream, which has none yet, a header of zeros); else QOA_IS_SAMPLE(answer), and
   QOA_SAMPLE(answer) is the sample. May be mixed with the two calls above. Larger blocks are much faster. */
int64_t qoa_decoder_next_item(const uint8_t *bytes, size_t length, uint8_t *state, size_t size);

/* facts[0..2] become total, channels and rate: the file's where the header has a total, else 0 and the current frame's. `room` is
   at least 3, else 7. Answers 0. */
int64_t qoa_decoder_facts(const uint8_t *bytes, size_t length, const uint8_t *state, size_t size, uint32_t *facts, size_t room);

/* The length in seconds as qoa_facts_seconds tells it; 0.0 for a stream; -8.0 for a bad state. */
double qoa_decoder_seconds(const uint8_t *bytes, size_t length, const uint8_t *state, size_t size);

/* ---- Encoding piece by piece ----

   An encoder's state is a block of qoa_encoder_size() bytes, for which the same holds as for a decoder's. The file is the file
   header and then its frames in order. All frames but the last should have QOA_FULL_FRAME samples per channel: other readers may
   insist on it. The total is declared first, and nothing holds the frames to it.

     // Records total samples per channel; state has size = qoa_encoder_size() bytes, and out qoa_encode_need(channels,
     // QOA_FULL_FRAME), which is enough for any frame. 0, or minus the number of a refusal.
     int64_t record(uint8_t channels, uint32_t rate, uint32_t total, uint8_t *state, size_t size, uint8_t *out, size_t room)
     {
         int64_t got = qoa_encoder_new(channels, rate, total, state, size);
         if (got >= 0)
             got = qoa_encoder_header(state, size, out, room);
         while (got > 0) {
             save(out, (size_t)got);
             if (total == 0)
                 return 0;
             size_t n = total < QOA_FULL_FRAME ? total : QOA_FULL_FRAME;
             got = qoa_encoder_frame(state, size, next_samples(n), n * channels, out, room);
             total -= (uint32_t)n;
         }
         return got;
     } */
int64_t qoa_encoder_size(void);

/* Writes the state of a new encoder. Answers 0. The block as in qoa_decoder_open. */
int64_t qoa_encoder_new(uint8_t channels, uint32_t rate, uint32_t total, uint8_t *state, size_t size);

/* Writes the file header: 8 bytes. */
int64_t qoa_encoder_header(const uint8_t *state, size_t size, uint8_t *out, size_t room);

/* Encodes the next frame: `count` samples, a multiple of the channels and at most QOA_FULL_FRAME of each (else 13). Counts bytes:
   exactly qoa_encode_need(channels, count / channels) less the 8 of the file header. Refusal 14 is -(14 + 256 * channel); from this
   state no frame can be written any more. */
int64_t qoa_encoder_frame(uint8_t *state, size_t size, const int16_t *samples, size_t count, uint8_t *out, size_t room);

/* Encodes a whole file, header and frames, of the state's total times channels samples. Counts bytes. 14 as in qoa_encode_all. */
int64_t qoa_encoder_file(uint8_t *state, size_t size, const int16_t *samples, size_t count, uint8_t *out, size_t room);

/* ---- Reading an answer ---- */

/* The samples per channel of a full frame. */
#define QOA_FULL_FRAME 5120

/* Of an answer below 0: the number of the refusal; where that is 14, the channel, and for a whole file the bytes that stand in
   the output. */
#define QOA_REFUSAL(answer) ((int)(-(int64_t)(answer) & 0xff))
#define QOA_CHANNEL(answer) ((int)(-(int64_t)(answer) >> 8 & 0xff))
#define QOA_WRITTEN(answer) ((size_t)(-(int64_t)(answer) >> 16))

/* Of an answer of qoa_decoder_next_frame above 0, or a header of qoa_decoder_next_item. */
#define QOA_FRAME_CHANNELS(answer) ((int)((int64_t)(answer) >> 48 & 0xff))
#define QOA_FRAME_RATE(answer) ((uint32_t)((int64_t)(answer) >> 16 & 0xffffffff))
#define QOA_FRAME_SAMPLES(answer) ((int)((int64_t)(answer) & 0xffff))

/* Of any answer of qoa_decoder_next_item: neither holds at the end or for a refusal. */
#define QOA_IS_HEADER(answer) ((int64_t)(answer) >> 60 == 1)
#define QOA_IS_SAMPLE(answer) ((int64_t)(answer) >> 60 == 2)
#define QOA_SAMPLE(answer) ((int16_t)((((int64_t)(answer) & 0xffff) ^ 0x8000) - 0x8000))

/* The words for the number of a refusal, as QOA_REFUSAL gives it; for any other number, an answer below 0 too, "an unknown refusal". */
static inline const char *qoa_refusal_words(int64_t number)
{
    switch (number) {
    case 1: return "not a QOA file";
    case 2: return "no frame in the file";
    case 3: return "a bad frame header";
    case 4: return "a frame whose channels or rate differ from the first one's";
    case 5: return "cut short";
    case 6: return "too many channels";
    case 7: return "the output is too small";
    case 8: return "a bad state";
    case 9: return "the file is too long";
    case 11: return "no channels, or too many";
    case 12: return "a rate of zero, or too high";
    case 13: return "no samples, too many, or not the same number for each channel";
    case 14: return "a weight of the predictor left its range, so this signal can't be stored";
    default: return "an unknown refusal";
    }
}

#ifdef __cplusplus
}
#endif

#endif
