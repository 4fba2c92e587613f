/* Yoldrim: the decision routine of a stationary vehicle warning unit, called from C.
 *
 * Every piece of memory goes as a pointer and then its length in bytes; one number that is written, as a pointer alone. A pointer is
 * not null, not even with the length 0, and the pieces that one call is given do not overlap. No call keeps a pointer, allocates memory,
 * or stops the program.
 *
 * Every call answers an int32_t, but yoldrim_busiest_stretch an int64_t: not negative, the count or the answer that its comment names;
 * negative, minus the number of a refusal, those of document 01, "What is turned down", 31 to 33 of a receiver (CR 4), 34 of striking a
 * sample out of a block (CR 6), and 35 and 36 of the busiest stretch (CR 7). A refused call leaves all lent memory as it was. An accepted
 * one writes the start of `out` and leaves the rest as lent; one that changes an engine, a receiver or a block writes it in place.
 *
 * Formats (samples, blocks, messages: little-endian) are those of document 01, with what change request CR 1 adds: happening bit 4 of a
 * sample says that a risk mitigation function is active, refusal 5 covers bits 5 to 7, and warning 4 is that for an unresponsive driver,
 * with cause 99, sub cause 8, quality 1 and validity 2.
 *
 * After CR 2 the vehicle stays still, or not still, through up to 5 samples in a row without a reading (speed 16,383). From the sixth on
 * it is not still until a reading comes, nor is it before the first reading. A message may come with a sample that has no reading.
 *
 * After CR 5 a warning 1, 2 or 3 is cancelled by distance more than 5,000 dm from the position in its event's New. An Update carries its
 * own sample's position, as before, and moves nothing that is measured from.
 *
 * Warning 4 has News and Updates alone, an Update after every 5 ticks, and no Cancel: it ends without a message once the bit clears or
 * the vehicle is still, or by a New of warning 3. A caller that shows what stands looks after each call at bytes 13 and 17 of the engine
 * (below), whether a warning stands and which; or it sees, 5 ticks after the last New or Update of warning 4, that no message has come.
 * At receivers it ends with its validity. The New that comes next has the next event number, with no Cancel before it.
 *
 * What a sender needs by the warning and no message holds: relevance distance code 4 for each; traffic class 1, but 0 for warning 4;
 * linked cause 93 with sub cause 3 for warning 4, and none for the others.
 */
#ifndef YOLDRIM_H
#define YOLDRIM_H

#include <stddef.h>
#include <stdint.h>

#ifdef __cplusplus
extern "C" {
#endif

#define YOLDRIM_SAMPLE_BYTES 20
#define YOLDRIM_MESSAGE_BYTES 32
#define YOLDRIM_BLOCK_BYTES 512
/* Output that a sample call needs, two messages, and a block call, 25 times as much. */
#define YOLDRIM_SAMPLE_OUT_BYTES 64
#define YOLDRIM_BLOCK_OUT_BYTES 1600
/* Output that the block reader needs, 25 samples. */
#define YOLDRIM_BLOCK_READ_OUT_BYTES 500

/* The engine lives in memory that the caller lends: an image of this many bytes, no more and no fewer. It holds the whole engine and
 * no pointer, so a unit may copy it, keep it over a restart and go on with it. Its bytes, little-endian:
 *   0        YOLDRIM_ENGINE_LAYOUT
 *   1        1 once the filter has a reading, else 0
 *   2        1 if ignition was on at the last sample, else 0
 *   3-7      1 or 0, for the cycle of warning 1: park, idle, brake, belt fulfilled in it, an expiring condition
 *   8-12     1 or 0, for the cycle of warning 2: the same
 *   13       1 while a warning stands, else 0
 *   14-15    zeros, so that every number stands at a place that four divides
 *   16-47    the standing warning's last New or Update, as a message; zeros while none stands
 *   48-51    samples taken
 *   52-55    the bits of the filter's value, an IEEE 754 binary32 number; 0 without a reading yet
 *   56-59    east in the last New, signed, in decimetres; 0 before the first
 *   60-63    north in the last New, likewise
 *   64-67    ticks of the detection cycle of warning 1
 *   68-71    ticks of the detection cycle of warning 2
 *   72-75    tick of the last New
 *   76-79    first tick that the last New counted
 *   80-83    tick of the last Cancel of warning 3
 *   84-87    number of News
 *   88-91    ticks stationary up to now
 *   92-95    ticks moving up to now
 *   96-99    ticks in park up to now
 *   100-103  ticks in idle up to now
 *   104-107  ticks with the parking brake on up to now
 *   108-111  ticks with the belt off up to now
 *   112-115  ticks with ignition off up to now
 *   116-119  ticks with a door open up to now
 *   120-123  ticks with the boot open up to now
 *   124-127  ticks with the bonnet open up to now
 *   128-131  ticks without eCall up to now
 *   132-135  ticks without a low severity crash or pedestrian collision up to now
 *   136-139  ticks without a high severity crash up to now
 *   140-143  ticks without a reading of the speed up to now
 * A fresh image has 0 in every byte but the first. Memory that is no image is refused with 21: of another length or layout, with a
 * number outside the ranges of refusal 21, or with a byte that no engine's image has in its place. */
#define YOLDRIM_ENGINE_BYTES 144

/* The layout's number, the first byte of every image. An image may outlive the software that saved it: every change of the engine's
 * state raises this number, and an image of another layout is refused with 21 and left as it was, never misread. A unit whose kept
 * image is refused begins fresh. */
#define YOLDRIM_ENGINE_LAYOUT 3

/* Makes the image of an engine that has taken no sample. Answers 0; -21 for another length than YOLDRIM_ENGINE_BYTES, also a longer
 * one. */
int32_t yoldrim_fresh(uint8_t *engine, size_t engine_bytes);

/* Takes one sample. Answers the number of messages written to `out`, 0 to 2. Refusals in the order 1, 2, 21, 22, 3-8, 23. */
int32_t yoldrim_sample(uint8_t *engine, size_t engine_bytes, const uint8_t *sample, size_t sample_bytes, uint8_t *out,
                       size_t out_bytes);

/* Takes all samples of a recorder block, or none. Answers the number of messages written to `out`, 0 to 50. Refusals in the order
 * 1, 2, 21, 9-12, then for the samples in turn 22, 3-8, 23. */
int32_t yoldrim_block(uint8_t *engine, size_t engine_bytes, const uint8_t *block, size_t block_bytes, uint8_t *out,
                      size_t out_bytes);

/* Copies the samples of a recorder block to `out`. Answers how many they are, 1 to 25. Refusals in the order 1, 2, 9-12, 3-8. */
int32_t yoldrim_block_read(const uint8_t *block, size_t block_bytes, uint8_t *out, size_t out_bytes);

/* Writes the recorder block of 1 to 25 samples to `out`. Answers how many they are. Refusals in the order 1, 2, 3-8. */
int32_t yoldrim_block_write(const uint8_t *samples, size_t samples_bytes, uint8_t *out, size_t out_bytes);

/* Appends a sample to those of a recorder block, in the lent block, which is then what yoldrim_block_write makes of these samples (CR 6).
 * Answers how many they are then, 2 to 25. The sample may have any tick; a block call takes the block only where its ticks follow each
 * other. Refusals in the order 1 for block or sample, 9-12 and 3-8 of the block, 3-8 of the sample, then 9 for a twenty-sixth. */
int32_t yoldrim_block_append(uint8_t *block, size_t block_bytes, const uint8_t *sample, size_t sample_bytes);

/* Strikes the last sample out of those of a recorder block, in the lent block, which is then what yoldrim_block_write makes of the others
 * (CR 6). Answers how many they are then, 1 to 24. Refusals in the order 1, 9-12 and 3-8 of the block, then 34 for the only one.
 * Striking out after appending gives the first bytes again, and so does appending the struck sample after striking out; neither second
 * call is ever refused. The struck sample is lost unless the caller copies it before: its 20 bytes begin at byte 20 * count - 8 of the
 * block, where count is byte 4. */
int32_t yoldrim_block_strike_out(uint8_t *block, size_t block_bytes);

/* Answers 0 for the bytes of a message, -13 for a wrong length, -14 for a field that no message has. */
int32_t yoldrim_message_check(const uint8_t *message, size_t message_bytes);

/* Finds the busiest stretch in a list of message records (CR 7), which lie one behind the other: the largest number of messages whose
 * reference ticks lie in `width` ticks on end, each message counted, also those of one tick. Answers this number, which may need more than
 * 32 bits, and writes to `first` the earliest first tick of such a stretch that is some message's reference tick. Answers 0 for an empty
 * list, whose stretches have no such tick, and leaves `first` as it was. The width is 1 to 10,000,000. Refusals in the order 13 for a
 * length that is no multiple of YOLDRIM_MESSAGE_BYTES, 14 for a record, 35 for a reference tick below the one before, and 36 for another
 * width; each looks at the whole list before the next. Each record is read three times at most, and no memory is taken beside the list.
 * examples/busiest.c shows the use. */
int64_t yoldrim_busiest_stretch(const uint8_t *records, size_t records_bytes, uint32_t width, uint32_t *first);

/* The receiver (CR 4): what other vehicles warn of. It holds one message for each of up to eight senders, each known by a number of 32
 * bits, and lives in memory that the caller lends: an image of this many bytes, no more and no fewer, with no pointer in it. Its bytes,
 * little-endian:
 *   0        YOLDRIM_RECEIVER_LAYOUT
 *   1-3      zeros
 *   4-7      last accepted tick, 0 before the first
 *   8-327    eight places of 40 bytes: sender (4 bytes), arrival (4), the message's record (32)
 * The messages that are held and had not lapsed when the last message was accepted stand in the first places, by rising sender; the
 * other places are zeros. Memory that is no receiver's is refused with 21: of another length or layout, or with a byte that saving a
 * receiver never makes in its place (byte 0 not the layout, bytes 1 to 3 not zero, a place's sub cause, cause or direction not those of
 * its warning and road type). What the calls make of memory that holds something else which no calls on an empty receiver leave, such as
 * places out of order, is left free, but for what stands at the head of this file.
 * examples/receive.c shows the use of these calls. Refusals 31 to 33 are those of CR 4. */
#define YOLDRIM_RECEIVER_BYTES 328

/* The layout's number, the first byte of every receiver: as the engine's, every change of what a receiver holds raises it, and a
 * receiver of another layout is refused with 21 and left as it was. */
#define YOLDRIM_RECEIVER_LAYOUT 1

/* Output that showing needs, and what each message takes of it: sender (4 bytes, little-endian) and record. */
#define YOLDRIM_SHOW_OUT_BYTES 288
#define YOLDRIM_SHOWN_BYTES 36

/* Makes the image of a receiver that has accepted no message. Answers 0; -21 for another length than YOLDRIM_RECEIVER_BYTES, also a
 * longer one. */
int32_t yoldrim_receiver_empty(uint8_t *receiver, size_t receiver_bytes);

/* Takes a message from a sender at the present tick of the receiver's own clock, in 100 ms as the samples' are. It takes the place of
 * the message held of that sender, if there is one, and lapses once 10 times its validity in ticks have passed since it arrived. A
 * Cancel is held too, until it lapses. Answers 1. Refusals in the order 21, 13, 14, then 31 for a tick below the last accepted one, 32
 * for a message that is no newer than the unlapsed one held of that sender (newer is a higher event, or the same event and a higher
 * reference tick), and 33 for a ninth sender while eight others are unlapsed. Unlapsed is judged at the tick that the call brings. A
 * refused call leaves the clock where it was. */
int32_t yoldrim_receive(uint8_t *receiver, size_t receiver_bytes, uint32_t tick, uint32_t sender, const uint8_t *message,
                        size_t message_bytes);

/* Writes the messages held to `out`, but no Cancel and none that had lapsed by the last accepted tick: 36 bytes each, sender and record,
 * by rising sender. Answers how many they are, 0 to 8. Refusals in the order 21, 2. */
int32_t yoldrim_show(const uint8_t *receiver, size_t receiver_bytes, uint8_t *out, size_t out_bytes);

/* The answers of the call for the driver's lamp (CR 4). */
#define YOLDRIM_LAMP_UNKNOWN 0
#define YOLDRIM_LAMP_STANDING 1
#define YOLDRIM_LAMP_SECONDS 2

/* Finds the seconds to a hazard from the gap along the road in cm and the own speed in cm/s. Answers YOLDRIM_LAMP_UNKNOWN unless the gap
 * is 0 to 200,000 and the speed 0 to 16,383; else YOLDRIM_LAMP_STANDING for a speed below 1; else YOLDRIM_LAMP_SECONDS, and then
 * `seconds` is the gap divided by the speed, rounded once. The other answers leave `seconds` as it was. Refuses nothing. The own speed is
 * the filter's value, bytes 52-55 of the engine as a float; before its first reading (byte 1 is 0) there is none, and the caller passes
 * a NaN, which is unknown. */
int32_t yoldrim_lamp(float gap, float speed, float *seconds);

#ifdef __cplusplus
}
#endif

#endif
