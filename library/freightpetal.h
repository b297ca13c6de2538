/* Freightpetal's commentary ducker for C. Link target/staticlib/libfreightpetal_c.a (tools/build freightpetal_c_c), x86-64 Linux.
 *
 * Calls. The caller lends FREIGHTPETAL_IMAGE_BYTES bytes, which hold the whole chain as the image that docs/SPECIFICATION.md describes: they
 * may be kept, copied and put back at any time. Every function answers 0 or a number of enum freightpetal_refusal, for any length and any
 * content; a refusal changes nothing that is lent.
 *
 * Pointers. A pointer is never null, and it points to as much as its length says; what a call writes overlaps with nothing else that is
 * lent. Images may lie at any address; samples, settings, places and answer are aligned as C aligns their types (4, 8, 8 and 8 bytes).
 *
 * Threads. The library keeps nothing itself: threads may use different images at the same time. Two calls on one image are not made at the
 * same time.
 *
 * Stack. A thread with 192 KiB can make every call (136 KiB do too, 132 KiB don't); musl gives a thread 128 KiB unless it asks for more.
 *
 * Floating point. The answers are promised for the mode that a process starts with: rounding to nearest, and numbers below 2^-1022 neither
 * flushed to zero (FTZ) nor read as zero (DAZ). A program that is linked with -Ofast or -ffast-math sets FTZ and DAZ at its start, for these
 * calls too, and gets other answers. */
#ifndef FREIGHTPETAL_H
#define FREIGHTPETAL_H

#include <stddef.h>
#include <stdint.h>

#ifdef __cplusplus
extern "C" {
#endif

#define FREIGHTPETAL_IMAGE_BYTES 11264     /* edition 2 */
#define FREIGHTPETAL_OLD_IMAGE_BYTES 10752 /* edition 1, which freightpetal_restore takes too */
#define FREIGHTPETAL_FRAME 480             /* samples of a channel, 10 ms at 48 kHz */
#define FREIGHTPETAL_CHANNELS 8            /* of a bed, at most */

enum freightpetal_refusal {
    FREIGHTPETAL_PASSED = 0,
    FREIGHTPETAL_SHORT_FRAME = 1,   /* the key isn't 480 samples, or the bed 480 for each of its channels */
    FREIGHTPETAL_BAD_SAMPLE = 2,    /* a sample is infinite or not a number */
    FREIGHTPETAL_BAD_SETTING = 3,   /* a setting is out of its range or not finite */
    FREIGHTPETAL_RUNAWAY = 4,       /* a number would not be finite */
    FREIGHTPETAL_COUNTER_FULL = 5,  /* onsets would pass 4,294,967,295 */
    FREIGHTPETAL_WRONG_LENGTH = 6,  /* the image isn't 11,264 bytes */
    FREIGHTPETAL_BAD_CHECK = 7,     /* a block's check is wrong */
    FREIGHTPETAL_FOREIGN_IMAGE = 8, /* a word breaks the image rules */
    FREIGHTPETAL_NO_STRAND = 9,     /* a strand other than 0 or 1 */
    FREIGHTPETAL_BAD_LAYOUT = 10    /* not 1 to 8 channels, or an angle or a flag out of its range */
};

enum freightpetal_state {
    FREIGHTPETAL_RELEASE = 0,
    FREIGHTPETAL_DUCK = 1,
    FREIGHTPETAL_INTERVIEW = 2,
    FREIGHTPETAL_OVERVOICE = 3
};

/* A strand after a frame. Flags are 0 or 1; where a has_ flag is 0, so is its value. "In tenths" and "in hundredths": rounded to the nearest
 * multiple of 0.1 or 0.01, halves away from zero. dBFS is 10 log10 of the mean square, 0 for a square wave at full scale, at least -120. */
struct freightpetal_strand {
    uint64_t active;           /* flag: there is speech, by probability, threshold and hold */
    double probability;        /* that there is speech, 0 to 1 unless an image of another maker held one beyond; not rounded. Each frame
                                  has one of its own, made of the last four numbers here, or 0 while gated; this one goes half of
                                  the way up to it, or a fifth of the way down */
    uint64_t has_speech_level; /* flag: there was speech since the last reset */
    double speech_level_dbfs;  /* level of the frames with speech, a mean over about 1 s of them, in tenths; it stays while there is none */
    double level_dbfs;         /* level of this frame, not rounded */
    double momentary_lufs;     /* loudness over 400 ms (BS.1770), or over the time since fresh, a reset or a layout where that is less;
                                  in tenths, at least -100 */
    uint64_t gated;            /* flag: the momentary loudness, unrounded, is below gate_lufs, so that nothing counts as speech */
    double short_term_lufs;    /* loudness over 3 s (BS.1770), or as above, in tenths, at least -100 */
    uint64_t onsets;           /* how often speech began; a reset keeps it */
    uint64_t offsets;          /* how often it ended; a reset that ends it counts */
    double over_floor_db;      /* power between 250 Hz and 4 kHz over the noise floor, which is its least smoothed value of about 2 s, in
                                  hundredths of a dB; 4 or less is no speech, from 14 on it may be */
    double modulation_db;      /* standard deviation of that power, in dB, over 400 ms, in hundredths; 2 or less is no speech, from 6 on it
                                  may be */
    double voicing;            /* how periodic the last 40 ms are: the greatest normalised autocorrelation, below 1 kHz, at periods of 80 to
                                  400 Hz, 0 to 1, in hundredths; 0.4 or less is unvoiced, from 0.75 on voiced. 0 where there is nearly no
                                  sound, or the two halves of the 40 ms are more than 10 dB apart */
    double anti;               /* the least of these autocorrelations, -1 to 0, in hundredths, and 0 where voicing is so; below -0.93, before
                                  it is rounded, the frame is a pure tone, which is no speech */
};

/* The answer to a frame. The bed goes down by `reduction` dB. While the ducker isn't enabled, the state is release, target_lu is the setting,
 * and all other words before the strands are 0. */
struct freightpetal_answer {
    uint64_t state;         /* enum freightpetal_state */
    double reduction;       /* dB, 0 to max_reduction_db, not rounded */
    double reduction_db;    /* the same, in hundredths */
    double slow_db;         /* what the slow loop adds to it, from the bed's short-term loudness, in hundredths of a dB */
    double mid_db;          /* what the mid loop adds, from the bed's momentary loudness, in hundredths; it may be negative */
    double fast_db;         /* what the fast loop adds, from the bed's loudness of about 50 ms, in hundredths */
    double target_lu;       /* the ratio that is aimed at: the setting overvoice_lu in state overvoice, else target_lu; not rounded */
    uint64_t has_ratio;     /* flag: neither the key's nor the bed's short-term loudness is silence (-100 LUFS or less) */
    double ratio_lu;        /* by how much the key is louder than the bed with its reduction, in tenths */
    uint64_t has_dialogue;  /* flag: the key's short-term loudness isn't silence */
    double dialogue_lufs;   /* the key's short-term loudness, in tenths */
    uint64_t has_bed;       /* flag: the bed's short-term loudness isn't silence */
    double bed_lufs;        /* the bed's short-term loudness before its reduction, in tenths */
    struct freightpetal_strand key;
    struct freightpetal_strand bed;
};

struct freightpetal_strand_settings {
    double threshold; /* speech begins where the probability is at least this, 0 to 1, and may end below max(threshold - 0.15, 0.05) */
    double hold_ms;   /* for how long the probability is below that until speech ends, ms, 0 to 60,000, rounded to frames of 10 ms */
    double gate_lufs; /* momentary loudness below which nothing counts as speech, LUFS, -100 to 0 */
};

/* All settings; a range has its ends. Fresh: 0.5, 300, -50 for both strands; 1, 5, 13, 24, 1, 1. */
struct freightpetal_settings {
    struct freightpetal_strand_settings key;
    struct freightpetal_strand_settings bed;
    uint64_t enabled;        /* 0 or not: whether the bed is ducked at all */
    double target_lu;        /* by how much the key is to be louder than the bed, LU, 0 to 40 */
    double overvoice_lu;     /* the same while both speak, LU, 0 to 40 */
    double max_reduction_db; /* dB, 0 to 60 */
    double speed;            /* of the loops, 0.01 to 100; 2 is twice as fast */
    uint64_t bed_voice;      /* 0 or not: whether speech in the bed counts */
};

/* Where a channel of the bed stands, seen from the listener. Its weight in the bed's loudness is 0 for an LFE, 1.41 for a channel at the side
 * (azimuth 60 to 120 or -120 to -60, elevation -29 to 29), else 1. */
struct freightpetal_place {
    int64_t azimuth;   /* degrees, -180 to 180: 0 ahead, 90 left, -90 right */
    int64_t elevation; /* degrees, -90 to 90: 0 at ear height, 90 above */
    uint64_t lfe;      /* flag, 0 or 1: a low-frequency channel; its angles must be in range and are stored as 0 */
};

/* Usual beds, in ffmpeg's order of the channels, as initialisers of struct freightpetal_place places[FREIGHTPETAL_CHANNELS]: 1, 2, 6 and 8
 * channels. FL FR; FL FR FC LFE BL BR (or SL SR); FL FR FC LFE BL BR SL SR. */
#define FREIGHTPETAL_MONO {{0, 0, 0}}
#define FREIGHTPETAL_STEREO {{30, 0, 0}, {-30, 0, 0}}
#define FREIGHTPETAL_5_1 {{30, 0, 0}, {-30, 0, 0}, {0, 0, 0}, {0, 0, 1}, {110, 0, 0}, {-110, 0, 0}}
#define FREIGHTPETAL_7_1 \
    {{30, 0, 0}, {-30, 0, 0}, {0, 0, 0}, {0, 0, 1}, {135, 0, 0}, {-135, 0, 0}, {90, 0, 0}, {-90, 0, 0}}

/* A fresh chain into the image: its bed has one channel, ahead. Refusal 6. */
uint64_t freightpetal_fresh(uint8_t *image, size_t image_bytes);

/* Whether the bytes are an image of edition 2, as the other calls take it. Refusals 6, 7, 8. */
uint64_t freightpetal_check(const uint8_t *image, size_t image_bytes);

/* The chain of these bytes, an image of edition 1 (its bed has one channel, ahead) or 2, into the image, whatever that holds. Refusals 6 (of
 * either length), 7, 8. */
uint64_t freightpetal_restore(uint8_t *image, size_t image_bytes, const uint8_t *bytes, size_t count);

/* One frame: 480 samples of the key, and 480 of each channel of the bed, one channel after the other. The bed's detector hears its first
 * channel; its loudness is that of all. Refusals 6, 7, 8, 1, 2, 4, 5, in this order. */
uint64_t freightpetal_frame(uint8_t *image, size_t image_bytes, const float *key, size_t key_samples, const float *bed, size_t bed_samples,
                            struct freightpetal_answer *answer);

/* All settings are replaced. Refusals 6, 7, 8, 3. */
uint64_t freightpetal_settings(uint8_t *image, size_t image_bytes, const struct freightpetal_settings *settings);

/* The key strand (0) or the bed strand (1) begins anew; the bed keeps its layout. Refusals 6, 7, 8, 9. */
uint64_t freightpetal_reset(uint8_t *image, size_t image_bytes, uint64_t strand);

/* The bed has `count` channels at these places; those past the count aren't looked at. Its loudness begins anew, also where the places are
 * the same as before; all else stays. Refusals 6, 7, 8, 10. */
uint64_t freightpetal_layout(uint8_t *image, size_t image_bytes, uint64_t count,
                             const struct freightpetal_place places[FREIGHTPETAL_CHANNELS]);

#ifdef __cplusplus
}
#endif
#endif
