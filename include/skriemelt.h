/*
 * skriemelt.h: reading and writing of object audio metadata (OAMD, ETSI TS 103 420 V1.2.1) from C and C++.
 *
 * The library is libskriemelt.a (`host/library`). It needs memcpy and memset of the C library and nothing else: it has no state, takes no memory,
 * opens nothing and never ends the program. Behind `make -C host install` it is libskriemelt: `pkg-config --cflags --libs skriemelt` for the shared library,
 * `pkg-config --cflags --libs skriemelt-static` for the archive. Without an install link with target/staticlib/libskriemelt.a. What stands here as a function with a
 * body is small, works on what it is given and nothing else, is not in the library and not part of what is proved.
 *
 * Slices. A slice is passed as two arguments: a pointer to its first byte, and its length in bytes. A pointer with length 0 may be NULL. A pointer with a
 * length above 0 must point to that many bytes; it needs no alignment. Bytes of every sort are fine in a payload, in records and in a trim table, and every
 * length is fine for them, as it is for a catalogue's text. What a call fills must not overlap any other slice of that call. The lists of a batch, summary or catalogue are slices of
 * numbers: their length is a count, and they are aligned as arrays of their numbers are.
 *
 * Tables. The programme and the timing are passed and answered by value. Values of every sort are fine in them.
 *
 * Refusals. A refused call leaves every byte of its lent buffers (read: the records and the trim table, batch: these of all entries and the answers, write:
 * the payload, listing: the text, catalogue: the text, or the lines and records read back from it, and the update before, salvage: the payload that is left) as it came, and all
 * fields of its answer but refusal and place, and with SKRIEMELT_PAST_PAYLOAD the missing bits, are 0. An accepted read writes the first 32 * objects * blocks bytes of the record
 * buffer, the first 94 + objects bytes of the trim buffer, and no others; an accepted write or salvage writes the first `length` bytes of its buffer and no others. What a batch
 * writes and what the calls of a catalogue write is said there. A summary and a question why a byte is what it is are lent nothing; refused, all counters, and all steps, are 0.
 *
 * Threads. Every call works on its arguments and its own stack alone (a read: about 36 kB, a batch: about 38 kB, a summary: about 75 kB, a write: about 1 kB, a listing: about 75 kB,
 * a catalogue, written: about 95 kB, read back: about 45 kB, a question why: about 85 kB, a salvage: about 70 kB). Calls may run at once in several threads, as long as no two are
 * lent the same buffer to be filled; an update before is one. What a call only looks at (read: the payload, batch, summary and catalogue: the store and the lists, write: the records
 * and the trim table, listing, why and salvage: the payload, catalogue read back: the text) may be shared.
 *
 * There and back. A payload that is read and written again may have other bytes: the written form is the one form of the tables, and what is not in the tables
 * (unknown elements, reserved data, alternate ids, how a value was coded) is gone. Read again, it gives the same tables and no unknown element.
 *
 * Frames. A payload belongs to one frame of the stream, and does not say which: the caller gives the frame's number, counted from 0; every number is fine. A frame is SKRIEMELT_FRAME_SAMPLES
 * samples. Each record holds its absolute time, frame * SKRIEMELT_FRAME_SAMPLES + the start of its block; nothing else of an answer depends on the frame. With frame 0 the times are
 * counted from the payload's own first sample.
 *
 * Bytes between the fields of an answer by value (padding) carry nothing: compare field by field. In the answers of a batch they are 0.
 */
#ifndef SKRIEMELT_H
#define SKRIEMELT_H

#include <math.h>
#include <stddef.h>
#include <stdint.h>

#ifdef __cplusplus
extern "C" {
#endif

/* The version of this interface: a thousand times the major number, plus the minor. A program built for a lower minor number of the same major one still works. */
#define SKRIEMELT_VERSION 3004
#define SKRIEMELT_VERSION_MAJOR 3
#define SKRIEMELT_VERSION_MINOR 4
#define SKRIEMELT_VERSION_STRING "3.4"

/* A result that must not be dropped: the refusal stands in it. */
#if defined(__GNUC__)
#define SKRIEMELT_MUST_USE __attribute__((warn_unused_result))
#else
#define SKRIEMELT_MUST_USE
#endif

#if defined(__cplusplus) || (defined(__STDC_VERSION__) && __STDC_VERSION__ >= 199901L)
#define SKRIEMELT_INLINE static inline
#elif defined(__GNUC__)
#define SKRIEMELT_INLINE static __inline__
#else
#define SKRIEMELT_INLINE static
#endif

/* A line that does not compile where a struct has another size than in the library. */
#define SKRIEMELT_HAS_SIZE(type, bytes) typedef char type##_has_its_size[sizeof(type) == (bytes) ? 1 : -1]

/* Limits. */
#define SKRIEMELT_MOST_PAYLOAD_BYTES 4096 /* a longer payload is refused with 1, a longer written form with 11 */
#define SKRIEMELT_MOST_RECORD_BYTES 40960 /* a buffer of this length holds the records of every payload */
#define SKRIEMELT_MOST_TRIM_BYTES 253     /* the trim table of every payload fits */
#define SKRIEMELT_MOST_OBJECTS 159
#define SKRIEMELT_MOST_BLOCKS 8
#define SKRIEMELT_MOST_BEDS 9
#define SKRIEMELT_MOST_UNKNOWN 46
#define SKRIEMELT_MOST_TEXT_BYTES 100000  /* the listing of every payload fits */
#define SKRIEMELT_MOST_ENTRIES 65536      /* payloads of a summary; more are refused with 16. A batch or catalogue may have any number */
#define SKRIEMELT_MOST_FRAME_TEXT_BYTES 338558 /* the lines of every frame fit, in a catalogue that is written and in one that can be read back */
#define SKRIEMELT_MOST_STEPS 166          /* steps of an answer why; one payload can need them all */
#define SKRIEMELT_MOST_DROPS 46           /* elements of a payload, all of which a salvage can drop */

/* Samples of a frame. A block may start past its end: that start is not folded into the next frame. */
#define SKRIEMELT_FRAME_SAMPLES 1536

/*
 * Refusals. Where it says "bit", the place is a bit position counted from 0 at the top bit of the payload's first byte. A read is refused with 1 to 9, a write with
 * 10 or 11; 10 comes first. An entry of a batch is refused with 12 or as a read is, 12 first; a whole batch with 13; a summary with 13 or 16, 13 first; a listing with
 * 18. Writing a catalogue is refused with 13, then 9 for the update before, then 18; reading it back with 9 for the update before, then 17, then 9 for the records, then 9 for the lines. A
 * question why is refused with 1 to 8 as a read is, then with 14; a salvage with 1 to 5, then with 11. 15 is not given. `switch ((skriemelt_refusal)answer.refusal)` lets the compiler
 * say which case is missing.
 */
typedef enum skriemelt_refusal {
    SKRIEMELT_ACCEPTED = 0,        /* place 0 */
    SKRIEMELT_TOO_LONG = 1,        /* the payload is longer than 4,096 bytes; place: its length in bytes */
    SKRIEMELT_PAST_PAYLOAD = 2,    /* a field, or an element's declared size, passes the payload's end; place: first bit of that field or size;
                                      missing: the bits that it lacks */
    SKRIEMELT_OTHER_VERSION = 3,   /* the version is not 0; place 0 */
    SKRIEMELT_COUNTS_DISAGREE = 4, /* object counts disagree; place: first bit behind the program assignment */
    SKRIEMELT_RESERVED_VALUE = 5,  /* a value that the standard marks reserved; place: first bit of that field */
    SKRIEMELT_SECOND_ELEMENT = 6,  /* a second known element of the same id; place: first bit of its id */
    SKRIEMELT_EXTENDED_EARLY = 7,  /* an extended object element before any object element; place: first bit of its id */
    SKRIEMELT_PAST_ELEMENT = 8,    /* a field of a known element passes the element's declared end; place: first bit of that field */
    SKRIEMELT_NO_ROOM = 9,         /* a buffer is too short: a read's for the records, or, if that is not, for the trim table; a catalogue's for the update before, and read
                                      back, if that is not, for the records, or, if that is not, for the lines; place: bytes needed */
    SKRIEMELT_NOT_VALID = 10,      /* not valid: programme, timing or too few record bytes, place 0; a record, by its own bytes or by its time, place: 1 + index of
                                      the first bad one; the trim table or too few bytes of it, place: 1 + number of records */
    SKRIEMELT_NO_FIT = 11,         /* the form is longer than the payload buffer or 4,096 bytes, or what a salvage leaves is longer than its buffer; place: bytes needed */
    SKRIEMELT_OUTSIDE = 12,        /* start and length leave the store; place: the start, in bytes; of an entry alone, in a batch, summary or catalogue */
    SKRIEMELT_LISTS = 13,          /* the lists differ in length, or, in a batch, slots or answers of all entries do not fit; place: the number of starts */
    SKRIEMELT_NO_SUCH = 14,        /* a question why: there is no such object, block or byte; place: 1, 2 or 3, for the first of these that there is not */
    SKRIEMELT_TOO_MANY = 16,       /* a summary of more than 65,536 payloads; place: their number */
    SKRIEMELT_BAD_LINE = 17,       /* a catalogue's text has a line that cannot stand there, or lines are missing at its end; place: the number of the first such line, from 1,
                                      one past the last where lines are missing */
    SKRIEMELT_SHORT_TEXT = 18      /* the text, of a listing or a catalogue, is longer than the text buffer; place: bytes needed */
} skriemelt_refusal;

/* The names are macros too, as they were before there was the enum: #ifdef finds them. */
#define SKRIEMELT_ACCEPTED SKRIEMELT_ACCEPTED
#define SKRIEMELT_TOO_LONG SKRIEMELT_TOO_LONG
#define SKRIEMELT_PAST_PAYLOAD SKRIEMELT_PAST_PAYLOAD
#define SKRIEMELT_OTHER_VERSION SKRIEMELT_OTHER_VERSION
#define SKRIEMELT_COUNTS_DISAGREE SKRIEMELT_COUNTS_DISAGREE
#define SKRIEMELT_RESERVED_VALUE SKRIEMELT_RESERVED_VALUE
#define SKRIEMELT_SECOND_ELEMENT SKRIEMELT_SECOND_ELEMENT
#define SKRIEMELT_EXTENDED_EARLY SKRIEMELT_EXTENDED_EARLY
#define SKRIEMELT_PAST_ELEMENT SKRIEMELT_PAST_ELEMENT
#define SKRIEMELT_NO_ROOM SKRIEMELT_NO_ROOM
#define SKRIEMELT_NOT_VALID SKRIEMELT_NOT_VALID
#define SKRIEMELT_NO_FIT SKRIEMELT_NO_FIT
#define SKRIEMELT_OUTSIDE SKRIEMELT_OUTSIDE
#define SKRIEMELT_LISTS SKRIEMELT_LISTS
#define SKRIEMELT_NO_SUCH SKRIEMELT_NO_SUCH
#define SKRIEMELT_TOO_MANY SKRIEMELT_TOO_MANY
#define SKRIEMELT_BAD_LINE SKRIEMELT_BAD_LINE
#define SKRIEMELT_SHORT_TEXT SKRIEMELT_SHORT_TEXT

/*
 * Records. One record for each object and block, objects outermost: the record of object o and block b begins at byte
 * SKRIEMELT_RECORD_STRIDE * (o * blocks + b) of the buffer (skriemelt_record). Beds stand first, then ISF, then dynamic objects (skriemelt_counts_of).
 *
 * Axes (4.2 of the standard). In the room, without the screen flag: x from 0 at the left wall to 1 at the right, y from 0 at the front wall to 1 at the back, z from -1 at the floor over
 * 0 at the listener to 1 at the ceiling. With the screen flag x and z run over the screen: x from its left edge to its right, z from its bottom edge to its top.
 * Width lies along x, depth along y, height along z. A bed or ISF object has no position of its own: its bytes from x up to its time are the defaults.
 *
 * A record has SKRIEMELT_RECORD_STRIDE bytes. The first SKRIEMELT_RECORD_BYTES of them the payload gives, one byte each; the others are the record's time, which every
 * record has, an inactive one too. Places in a record:
 */
#define SKRIEMELT_RECORD_STRIDE 32           /* bytes from one record to the next */
#define SKRIEMELT_RECORD_BYTES 24            /* those of them that the payload gives; the time follows */
#define SKRIEMELT_RECORD_ACTIVE 0            /* 1 active, 0 not */
#define SKRIEMELT_RECORD_CLASS 1             /* one of SKRIEMELT_CLASS_.. */
#define SKRIEMELT_RECORD_GAIN 2              /* gain in dB plus 50, 1 to 65: -49 to +15 dB; 0 is minus infinity (skriemelt_gain_db) */
#define SKRIEMELT_RECORD_PRIORITY 3          /* priority in 32nds, 0 to 32: 32 is the highest */
#define SKRIEMELT_RECORD_X 4                 /* x in 62nds, 0 (left) to 62 (right) */
#define SKRIEMELT_RECORD_Y 5                 /* y in 62nds, 0 (front) to 62 (back) */
#define SKRIEMELT_RECORD_Z 6                 /* z in 15ths with its sign, plus 64: 49 (floor, -1) to 79 (ceiling, +1) */
#define SKRIEMELT_RECORD_DISTANCE 7          /* 0: not given, in the room; 1: at infinity; else 2 + distance_factor_idx, 0 to 15 for 1.1 1.3 1.6 2.0 2.5 3.2 4.0 5.0 6.3 7.9 10.0 12.6
                                                15.8 20.0 25.1 50.1: so many times as far from (0.5, 0.5, 0) as the wall is that way (5.2.1.2) */
#define SKRIEMELT_RECORD_WIDTH 8             /* width in 31sts, 0 to 31, of the room along x */
#define SKRIEMELT_RECORD_DEPTH 9             /* depth in 31sts, 0 to 31, of the room along y */
#define SKRIEMELT_RECORD_HEIGHT 10           /* height in 31sts, 0 to 31, of the room along z */
#define SKRIEMELT_RECORD_ZONE 11             /* zone_constraints_idx: 0 none, 1 no back, 2 no side, 3 centre and back only, 4 screen only, 5 surround only */
#define SKRIEMELT_RECORD_ELEVATION 12        /* 1: the top and bottom zone is included, 0: excluded */
#define SKRIEMELT_RECORD_SCREEN 13           /* 1: the position is related to the screen, 0: to the room */
#define SKRIEMELT_RECORD_SCREEN_FACTOR 14    /* screen_factor_bits, 0 to 7: the factor is (bits + 1) / 8; 0 without the flag, where the factor is 0 */
#define SKRIEMELT_RECORD_SCREEN_DEPTH 15     /* depth_factor_idx, 0 to 3: 0.25, 0.5, 1, 2; 0 without the flag */
#define SKRIEMELT_RECORD_SNAP 16             /* 1: locked to a channel */
#define SKRIEMELT_RECORD_DIVERGENCE 17       /* 1: divergence is carried */
#define SKRIEMELT_RECORD_DIVERGENCE_MODE 18  /* object_div_mode: 0 by table, 1 as in the block before, 2 by code */
#define SKRIEMELT_RECORD_DIVERGENCE_VALUE 19 /* mode 0: 0 to 3 for 0.500755, 0.608529, 0.704833, 1.0; mode 1: 0; mode 2: object_div_code, 1 (divergence 0) to 63 (1), Table 42 */
#define SKRIEMELT_RECORD_PRECISE 20          /* precise position: presence bits, as carried: 4 z, 2 y, 1 x; the bytes above do not have it added (skriemelt_x, _y, _z) */
#define SKRIEMELT_RECORD_PRECISE_X 21        /* code of x, 0 to 3: 1, 2, -1, -2 fifths of a 62nd; 0 also where the presence bit is not set */
#define SKRIEMELT_RECORD_PRECISE_Y 22        /* code of y, likewise */
#define SKRIEMELT_RECORD_PRECISE_Z 23        /* code of z, 0 to 3: 1, 2, -1, -2 fifths of a 15th; likewise */
#define SKRIEMELT_RECORD_TIME 24             /* eight bytes, least byte first: frame * SKRIEMELT_FRAME_SAMPLES + the start of the record's block, in samples (skriemelt_time) */

#define SKRIEMELT_CLASS_BED 0
#define SKRIEMELT_CLASS_ISF 1
#define SKRIEMELT_CLASS_DYNAMIC 2

/*
 * Trim table. Its length is SKRIEMELT_TRIM_FIXED + objects: whether there is a trim element, then one byte for each of its fields (5.5.12) but the reserved
 * bits, the flags of the objects last. What is not carried is 0; without a trim element all bytes are 0. Places in the table:
 */
#define SKRIEMELT_TRIM_PRESENT 0     /* 1 if there is a trim element */
#define SKRIEMELT_TRIM_WARP_MODE 1   /* warp_mode: 1: y is to be doubled before rendering; the records hold y as carried */
#define SKRIEMELT_TRIM_GLOBAL_MODE 2 /* global_trim_mode, one of SKRIEMELT_TRIM_MODE_.. */
#define SKRIEMELT_TRIM_CONFIG 3      /* the first of SKRIEMELT_TRIM_CONFIGS configurations, all 0 unless the mode is SKRIEMELT_TRIM_MODE_CUSTOM */
#define SKRIEMELT_TRIM_PER_OBJECT 93 /* b_disable_trim_per_obj: whether the objects' flags are carried */
#define SKRIEMELT_TRIM_FIXED 94      /* b_disable_trim of object 0, and so on: the bytes before do not depend on the objects */

/* Configuration c begins at byte SKRIEMELT_TRIM_CONFIG + SKRIEMELT_TRIM_CONFIG_STRIDE * c. Places in it: */
#define SKRIEMELT_TRIM_CONFIGS 9
#define SKRIEMELT_TRIM_CONFIG_STRIDE 10
#define SKRIEMELT_TRIM_CONFIG_DEFAULT 0    /* b_default_trim; if 1, all else is 0 */
#define SKRIEMELT_TRIM_CONFIG_DISABLE 1    /* b_disable_trim; if 1, all else is 0 */
#define SKRIEMELT_TRIM_CONFIG_CARRIED 2    /* trim_balance_presence[], 5 bits as carried: SKRIEMELT_TRIM_CARRIED_.. */
#define SKRIEMELT_TRIM_CONFIG_CENTRE 3     /* trim_centre, 0 to 15: +6 +3 +1.5 +0.75 -0.75 -1.5 -3 -4.5 -6 -7.5 -9 -10.5 -12 -13.5 -16 -36 dB */
#define SKRIEMELT_TRIM_CONFIG_SURROUND 4   /* trim_surround, 4 to 15: -0.75 to -36 dB, as trim_centre */
#define SKRIEMELT_TRIM_CONFIG_HEIGHT 5     /* trim_height, 4 to 15: -0.75 to -36 dB, as trim_centre */
#define SKRIEMELT_TRIM_CONFIG_SIGN_TB 6    /* bal3D_Y_sign_tb_code: 0 towards the front, 1 towards the back */
#define SKRIEMELT_TRIM_CONFIG_AMOUNT_TB 7  /* bal3D_Y_amount_tb, 0 to 15: (amount + 1) / 16 */
#define SKRIEMELT_TRIM_CONFIG_SIGN_LIS 8   /* bal3D_Y_sign_lis_code: 0 towards the front, 1 towards the back */
#define SKRIEMELT_TRIM_CONFIG_AMOUNT_LIS 9 /* bal3D_Y_amount_lis, 0 to 15: (amount + 1) / 16 */

#define SKRIEMELT_TRIM_MODE_DEFAULT 0
#define SKRIEMELT_TRIM_MODE_DISABLE 1
#define SKRIEMELT_TRIM_MODE_CUSTOM 2

#define SKRIEMELT_TRIM_CARRIED_CENTRE 1
#define SKRIEMELT_TRIM_CARRIED_SURROUND 2
#define SKRIEMELT_TRIM_CARRIED_HEIGHT 4
#define SKRIEMELT_TRIM_CARRIED_TB 8   /* sign and amount, top and bottom planes */
#define SKRIEMELT_TRIM_CARRIED_LIS 16 /* sign and amount, listener plane */

/* Bits of skriemelt_programme.content (content_description). */
#define SKRIEMELT_CONTENT_BED 1
#define SKRIEMELT_CONTENT_ISF 2
#define SKRIEMELT_CONTENT_DYNAMIC 4
#define SKRIEMELT_CONTENT_RESERVED 8

/*
 * One bed of the program assignment (5.5.3), as carried. Bits of the assignment, from the one of weight 1 on (skriemelt_channel_label): standard, a flag for one channel or two:
 * L R, C, LFE, LS RS, LB RB, TFL TFR, TSL TSR, TBL TBR, LW RW, LFE2; not standard: L, R, C, LFE, LS, RS, LB, RB, TFL, TFR, TSL, TSR, TBL, TBR, LW, RW, LFE2. The
 * objects of a bed follow its channels in this order.
 */
typedef struct skriemelt_bed {
    uint32_t assignment; /* channel assignment flags, 10 bits (standard) or 17, index 0 of the standard's array the top bit; 0 for an LFE-only bed */
    uint8_t lfeonly;     /* b_lfe_only */
    uint8_t standard;    /* b_standard_chan_assign; 0 for an LFE-only bed */
} skriemelt_bed;

/* The object count, and each field of the program assignment as carried; what is not carried is 0. */
typedef struct skriemelt_programme {
    uint8_t objects;    /* object count, 1 to 159 */
    uint8_t dynonly;    /* b_dyn_object_only_program */
    uint8_t lfe;        /* b_lfe_present */
    uint8_t content;    /* content_description: SKRIEMELT_CONTENT_.. */
    uint8_t distribute; /* b_bed_chan_distribute */
    uint8_t multiple;   /* b_multiple_bed_instances_present */
    uint8_t instances;  /* num_bed_instances_bits, 0 to 7 */
    uint8_t bedcount;   /* beds in use, 0 to 9 */
    uint8_t isf;        /* intermediate_spatial_format_idx, 0 to 5: SR3.1.0.0 (4 objects), SR5.3.0.0 (8), SR7.3.0.0 (10), SR9.5.0.0 (14), SR7.5.3.0 (15), SR15.9.5.1 (30) */
    uint8_t dynamics;   /* num_dynamic_objects_bits with its extension added: one less than the dynamic objects, if SKRIEMELT_CONTENT_DYNAMIC is set */
    skriemelt_bed beds[SKRIEMELT_MOST_BEDS]; /* those from bedcount on are 0 */
} skriemelt_programme;

/*
 * When an update starts, and how long it takes to take hold; both in samples of the audio (the rate is not in the payload). A start is counted from the first sample that the payload applies
 * to, the sample offset included (5.3.2); starts need not rise from block to block. The ramp runs from the start on, from the values of the update before to those of this one.
 */
typedef struct skriemelt_update {
    uint16_t start; /* 0 to 2,047 */
    uint16_t ramp;  /* 0 to 2,048; 0: at once */
} skriemelt_update;

/* The timing of each block. */
typedef struct skriemelt_timing {
    uint8_t blocks; /* 1 to 8 with a known object element, 0 without */
    skriemelt_update updates[SKRIEMELT_MOST_BLOCKS]; /* those from blocks on are 0 */
} skriemelt_timing;

/* What a read answers, beside the records and the trim table. On a refusal all but refusal and place is 0, and but missing with SKRIEMELT_PAST_PAYLOAD. */
typedef struct skriemelt_read_answer {
    uint64_t place;  /* see the refusals above */
    uint8_t refusal; /* SKRIEMELT_ACCEPTED to SKRIEMELT_NO_ROOM; in a batch SKRIEMELT_OUTSIDE too */
    uint8_t unknown; /* number of unknown elements, 0 to 46 */
    skriemelt_programme programme;
    skriemelt_timing timing;
    uint32_t missing; /* SKRIEMELT_PAST_PAYLOAD: bits that were missing for the field or size at the place, 1 to 8,947,840; else 0 */
} skriemelt_read_answer;

/* What a write answers, beside the payload. On a refusal the length is 0. */
typedef struct skriemelt_write_answer {
    uint64_t place;  /* see the refusals above */
    uint32_t length; /* bytes of the payload, 2 to 4,096 */
    uint8_t refusal; /* SKRIEMELT_ACCEPTED, SKRIEMELT_NOT_VALID or SKRIEMELT_NO_FIT */
} skriemelt_write_answer;

/* What a batch answers, beside the answers of its entries. */
typedef struct skriemelt_batch_answer {
    uint64_t place;  /* see the refusals above */
    uint8_t refusal; /* SKRIEMELT_ACCEPTED, whatever the entries were answered, or SKRIEMELT_LISTS */
} skriemelt_batch_answer;

/* What a listing answers, beside the text. On a refusal the length is 0. */
typedef struct skriemelt_text_answer {
    uint64_t place;  /* see the refusals above */
    uint32_t length; /* bytes of the text */
    uint8_t refusal; /* SKRIEMELT_ACCEPTED, whether or not the payload was accepted, or SKRIEMELT_SHORT_TEXT */
} skriemelt_text_answer;

/* How many counters a summary has of each sort: one for each value that the byte of a record can have, and for each answer that a payload can have. */
#define SKRIEMELT_GAINS 66
#define SKRIEMELT_ZONES 6
#define SKRIEMELT_CLASSES 3
#define SKRIEMELT_ACTIVITIES 2
#define SKRIEMELT_PAYLOAD_ANSWERS 13

/*
 * What a summary answers. All but payloads counts over the accepted payloads alone. Every record counts once among the gains, zones, classes and activities, an inactive one with its
 * defaults (gain 0, zone 0), one of a bed or ISF object with zone 0, so each of these four adds up to records; payloads adds up to the number of payloads. No counter wraps around. On a
 * refusal all but refusal and place is 0.
 */
typedef struct skriemelt_summary {
    uint64_t place;                               /* see the refusals above */
    uint8_t refusal;                              /* SKRIEMELT_ACCEPTED, whatever the payloads were answered, SKRIEMELT_LISTS or SKRIEMELT_TOO_MANY */
    uint32_t records;                             /* records: objects * blocks of each payload */
    uint32_t gains[SKRIEMELT_GAINS];              /* records by SKRIEMELT_RECORD_GAIN: 0 is minus infinity, k from 1 on is k - 50 dB */
    uint32_t zones[SKRIEMELT_ZONES];              /* records by SKRIEMELT_RECORD_ZONE */
    uint32_t classes[SKRIEMELT_CLASSES];          /* records by SKRIEMELT_RECORD_CLASS */
    uint32_t activity[SKRIEMELT_ACTIVITIES];      /* records by SKRIEMELT_RECORD_ACTIVE: 0 not active, 1 active */
    uint32_t late;                                /* blocks that start past sample 1,535, the last of their frame; a block counts once, however many objects there are */
    uint32_t ramps;                               /* the sum of the ramps of all blocks, in samples; likewise */
    uint32_t payloads[SKRIEMELT_PAYLOAD_ANSWERS]; /* payloads by refusal, 0 the accepted ones; 9, 10 and 11 stay 0, since there is always room */
} skriemelt_summary;

/* What the writing of a catalogue answers, beside the text. On a refusal the length is 0. */
typedef struct skriemelt_catalogue_answer {
    uint64_t place;  /* see the refusals above; at most 2^64 - 1, if more bytes are needed */
    uint64_t length; /* bytes of the text */
    uint8_t refusal; /* SKRIEMELT_ACCEPTED, whatever the payloads were answered, SKRIEMELT_LISTS, SKRIEMELT_NO_ROOM or SKRIEMELT_SHORT_TEXT */
} skriemelt_catalogue_answer;

/* What the reading back of a catalogue answers, beside the lines and the records. On a refusal frames and bytes are 0. */
typedef struct skriemelt_back_answer {
    uint64_t place;  /* see the refusals above; at most 2^64 - 1, if more bytes are needed */
    uint64_t frames; /* frames of the text */
    uint64_t bytes;  /* bytes of their records */
    uint8_t refusal; /* SKRIEMELT_ACCEPTED, whether or not frames of the text are refused ones, SKRIEMELT_NO_ROOM or SKRIEMELT_BAD_LINE */
} skriemelt_back_answer;

/* A frame of a catalogue: what its line and the lines of its updates hold. */
typedef struct skriemelt_catalogue_frame {
    uint32_t frame;  /* the frame's number */
    uint8_t refusal; /* of its payload: SKRIEMELT_ACCEPTED, 1 to 8, or SKRIEMELT_OUTSIDE; its place is not in a catalogue */
    uint8_t objects; /* 1 to 159; refused: 0 */
    uint8_t blocks;  /* 0 to 8; refused: 0 */
    uint8_t zero;    /* 0 */
    skriemelt_update updates[SKRIEMELT_MOST_BLOCKS]; /* those from blocks on are 0 */
} skriemelt_catalogue_frame;

/*
 * The update before, as one call of a catalogue leaves it for the next: the records of the last update so far, without their times. All bytes 0: there is none yet. Other bytes than
 * a call has left are taken as they stand, a count above 159 as 159.
 */
#define SKRIEMELT_BEFORE_BYTES 3817
typedef struct skriemelt_catalogue_before {
    uint8_t objects; /* of that update; 0: there is none */
    uint8_t rows[SKRIEMELT_RECORD_BYTES * SKRIEMELT_MOST_OBJECTS]; /* the first SKRIEMELT_RECORD_BYTES bytes of each object's record, object by object */
} skriemelt_catalogue_before;

/*
 * Where a byte of a record comes from (skriemelt_why_step.source; skriemelt_source_word). The last two lead to another step, all others end the chain.
 */
#define SKRIEMELT_SOURCE_FIELD 1          /* a field: the last one that was read for the byte */
#define SKRIEMELT_SOURCE_PROGRAMME 2      /* the programme: the class, byte 1, alone */
#define SKRIEMELT_SOURCE_BASIC_DEFAULT 3  /* a default of Table 28: bytes 2 and 3 of a block whose status says so, or that is not active */
#define SKRIEMELT_SOURCE_RENDER_DEFAULT 4 /* a default of Table 29: bytes 4 to 16 likewise, and of every bed and ISF object */
#define SKRIEMELT_SOURCE_NOTHING 5        /* nothing is carried for it: bytes 17 to 23, which are then 0 */
#define SKRIEMELT_SOURCE_BLOCK 6          /* the same byte of the block before; with a field, moved by that field's difference, and held within the range of the byte */
#define SKRIEMELT_SOURCE_OBJECT 7         /* the same byte of the object before, in the same block: byte 2 alone, by object_gain_idx 3 */

/* The fields that a byte can come from (skriemelt_why_step.field; skriemelt_field_name gives the standard's names), in the order in which they are sent. */
#define SKRIEMELT_FIELD_NONE 0
#define SKRIEMELT_FIELD_NOT_ACTIVE 1          /* byte 0 */
#define SKRIEMELT_FIELD_GAIN_IDX 2            /* byte 2 */
#define SKRIEMELT_FIELD_GAIN_BITS 3           /* byte 2 */
#define SKRIEMELT_FIELD_DEFAULT_PRIORITY 4    /* byte 3 */
#define SKRIEMELT_FIELD_PRIORITY_BITS 5       /* byte 3 */
#define SKRIEMELT_FIELD_DIFF_X 6              /* byte 4, with SKRIEMELT_SOURCE_BLOCK, as the two behind it */
#define SKRIEMELT_FIELD_DIFF_Y 7              /* byte 5 */
#define SKRIEMELT_FIELD_DIFF_Z 8              /* byte 6 */
#define SKRIEMELT_FIELD_X 9                   /* byte 4 */
#define SKRIEMELT_FIELD_Y 10                  /* byte 5 */
#define SKRIEMELT_FIELD_Z 11                  /* byte 6; its sign is the bit before it */
#define SKRIEMELT_FIELD_DISTANCE_SPECIFIED 12 /* byte 7, without a distance */
#define SKRIEMELT_FIELD_AT_INFINITY 13        /* byte 7, at infinity */
#define SKRIEMELT_FIELD_DISTANCE_IDX 14       /* byte 7 */
#define SKRIEMELT_FIELD_ZONE_IDX 15           /* byte 11 */
#define SKRIEMELT_FIELD_ELEVATION 16          /* byte 12 */
#define SKRIEMELT_FIELD_SIZE_IDX 17           /* bytes 8 to 10, without a size */
#define SKRIEMELT_FIELD_SIZE_BITS 18          /* bytes 8 to 10, one size for all */
#define SKRIEMELT_FIELD_WIDTH 19              /* byte 8 */
#define SKRIEMELT_FIELD_DEPTH 20              /* byte 9 */
#define SKRIEMELT_FIELD_HEIGHT 21             /* byte 10 */
#define SKRIEMELT_FIELD_SCREEN_REF 22         /* byte 13; bytes 14 and 15 without the flag */
#define SKRIEMELT_FIELD_SCREEN_FACTOR 23      /* byte 14 */
#define SKRIEMELT_FIELD_DEPTH_IDX 24          /* byte 15 */
#define SKRIEMELT_FIELD_SNAP 25               /* byte 16 */
#define SKRIEMELT_FIELD_DIVERGENCE 26         /* byte 17 */
#define SKRIEMELT_FIELD_DIV_MODE 27           /* byte 18 */
#define SKRIEMELT_FIELD_DIV_TABLE 28          /* byte 19, mode 0 */
#define SKRIEMELT_FIELD_DIV_CODE 29           /* byte 19, mode 2 */
#define SKRIEMELT_FIELD_PRESENCE 30           /* byte 20 */
#define SKRIEMELT_FIELD_PRECISE_X 31          /* byte 21 */
#define SKRIEMELT_FIELD_PRECISE_Y 32          /* byte 22 */
#define SKRIEMELT_FIELD_PRECISE_Z 33          /* byte 23 */

/* A step of the chain that leads back from a byte of a record. */
typedef struct skriemelt_why_step {
    uint32_t bit;       /* the first bit of the field, counted from 0 at the top bit of the payload's first byte; 0 without a field */
    uint8_t object;     /* the object */
    uint8_t block;      /* the block */
    uint8_t value;      /* the byte of their record */
    uint8_t source;     /* where it comes from: SKRIEMELT_SOURCE_.. */
    uint8_t field;      /* SKRIEMELT_FIELD_..; 0 unless the source is a field, or the block before with a difference */
    uint8_t difference; /* that difference, 3 bits as carried (skriemelt_difference gives -4 to 3), else 0 */
} skriemelt_why_step;

/* What a question why answers. On a refusal all but refusal and place is 0, and but missing with SKRIEMELT_PAST_PAYLOAD. */
typedef struct skriemelt_why_answer {
    uint64_t place;   /* see the refusals above */
    uint32_t missing; /* as in skriemelt_read_answer */
    uint8_t refusal;  /* SKRIEMELT_ACCEPTED, 1 to 8, or SKRIEMELT_NO_SUCH */
    uint8_t count;    /* steps, 1 to object + block + 1 */
    skriemelt_why_step steps[SKRIEMELT_MOST_STEPS]; /* from the byte that was asked for to the one that its value stems from; those from count on are 0 */
} skriemelt_why_answer;

/* The ids of the known elements (skriemelt_drop.id; skriemelt_element_name). */
#define SKRIEMELT_ELEMENT_OBJECT 1
#define SKRIEMELT_ELEMENT_TRIM 2
#define SKRIEMELT_ELEMENT_EXTENDED 5

/* An element that a salvage has dropped. */
typedef struct skriemelt_drop {
    uint32_t place;  /* what the refusal says, in the payload as it came: see the refusals above */
    uint8_t id;      /* the element's id: SKRIEMELT_ELEMENT_.. */
    uint8_t refusal; /* SKRIEMELT_RESERVED_VALUE, SKRIEMELT_SECOND_ELEMENT, SKRIEMELT_EXTENDED_EARLY or SKRIEMELT_PAST_ELEMENT */
} skriemelt_drop;

/* What a salvage answers, beside the payload that is left. On a refusal all but refusal and place is 0, and but missing with SKRIEMELT_PAST_PAYLOAD. */
typedef struct skriemelt_salvage_answer {
    uint64_t place;   /* see the refusals above, in the payload as it came */
    uint32_t missing; /* as in skriemelt_read_answer */
    uint32_t length;  /* bytes of what is left, 2 to the payload's own */
    uint8_t refusal;  /* SKRIEMELT_ACCEPTED, 1 to 5, or SKRIEMELT_NO_FIT */
    uint8_t drops;    /* elements that were dropped, 0 to 46; 0: what is left is the payload as it came */
    skriemelt_drop dropped[SKRIEMELT_MOST_DROPS]; /* these, in their order in the payload; those from drops on are 0 */
} skriemelt_salvage_answer;

SKRIEMELT_HAS_SIZE(skriemelt_bed, 8);
SKRIEMELT_HAS_SIZE(skriemelt_programme, 84);
SKRIEMELT_HAS_SIZE(skriemelt_update, 4);
SKRIEMELT_HAS_SIZE(skriemelt_timing, 34);
SKRIEMELT_HAS_SIZE(skriemelt_read_answer, 136);
SKRIEMELT_HAS_SIZE(skriemelt_write_answer, 16);
SKRIEMELT_HAS_SIZE(skriemelt_batch_answer, 16);
SKRIEMELT_HAS_SIZE(skriemelt_text_answer, 16);
SKRIEMELT_HAS_SIZE(skriemelt_summary, 384);
SKRIEMELT_HAS_SIZE(skriemelt_catalogue_answer, 24);
SKRIEMELT_HAS_SIZE(skriemelt_back_answer, 32);
SKRIEMELT_HAS_SIZE(skriemelt_catalogue_frame, 40);
SKRIEMELT_HAS_SIZE(skriemelt_catalogue_before, SKRIEMELT_BEFORE_BYTES);
SKRIEMELT_HAS_SIZE(skriemelt_why_step, 12);
SKRIEMELT_HAS_SIZE(skriemelt_why_answer, 2008);
SKRIEMELT_HAS_SIZE(skriemelt_drop, 8);
SKRIEMELT_HAS_SIZE(skriemelt_salvage_answer, 392);

/* The version of the library; it equals SKRIEMELT_VERSION of the header that belongs to it. */
SKRIEMELT_MUST_USE
uint32_t skriemelt_version(void);

/*
 * Reads one payload, already taken out of its EMDF container, of a frame. The record buffer needs SKRIEMELT_RECORD_STRIDE * objects * blocks bytes, never more than
 * SKRIEMELT_MOST_RECORD_BYTES, the trim buffer SKRIEMELT_TRIM_FIXED + objects bytes, never more than SKRIEMELT_MOST_TRIM_BYTES, with or without a trim element;
 * they need not be cleared. Every input is answered: there is nothing to check beforehand.
 */
SKRIEMELT_MUST_USE
skriemelt_read_answer skriemelt_read(const uint8_t *payload, size_t payload_bytes, uint32_t frame, uint8_t *records, size_t records_bytes, uint8_t *trim, size_t trim_bytes);

/*
 * Reads a shelf of payloads, n = starts_count of them, in one call. Payload i is bytes starts[i] to starts[i] + lengths[i] - 1 of the store, and is read as
 * skriemelt_read reads it by itself with frames[i], into slot i of the records, slot i of the trim tables and answers[i]. Every input is answered: there is nothing to check
 * beforehand, and no sum or product of what is given wraps around.
 *
 * Slots. Slot i of the records begins at byte i * record_slot and has record_slot bytes; likewise trim_slot bytes in trims. Each is the buffer of its entry: one
 * that is too short is SKRIEMELT_NO_ROOM for that entry alone. Slots of SKRIEMELT_MOST_RECORD_BYTES and SKRIEMELT_MOST_TRIM_BYTES suffice for every payload. A slot
 * length may be 0; then that pointer may be NULL with length 0.
 *
 * Store. Payloads may overlap, repeat and stand in any order. A start and length that leave the store are SKRIEMELT_OUTSIDE for that entry alone, before its
 * length is looked at; a start at the store's end with length 0 is an empty payload.
 *
 * What is written. The whole answer of every entry, a refused one too, padding as 0. Of an accepted entry the first bytes of its two slots, as a read writes
 * them; of a refused entry nothing in either slot, and the entries behind it are read all the same. Nothing else: the rest of a slot, and what lies behind n slots
 * or n answers, stays. The call itself then answers SKRIEMELT_ACCEPTED with place 0.
 *
 * Frames. They may repeat and stand in any order.
 *
 * SKRIEMELT_LISTS with place n, before anything is read or written: lengths_count or frames_count is not n, records_bytes is below n * record_slot, trims_bytes below n * trim_slot,
 * or answers_bytes below n * sizeof(skriemelt_read_answer). answers_bytes is in bytes, as the length of every lent buffer. n may be 0.
 *
 * Records, trims and answers must overlap neither one another nor the store or the lists; the store and the lists are only looked at.
 */
SKRIEMELT_MUST_USE
skriemelt_batch_answer skriemelt_read_batch(const uint8_t *store, size_t store_bytes, const uint64_t *starts, size_t starts_count, const uint64_t *lengths,
                                            size_t lengths_count, const uint32_t *frames, size_t frames_count, size_t record_slot, size_t trim_slot,
                                            uint8_t *records, size_t records_bytes, uint8_t *trims, size_t trims_bytes,
                                            skriemelt_read_answer *answers, size_t answers_bytes);

/*
 * Summarises a segment of payloads, n = starts_count of them, given as in a batch: payload i is bytes starts[i] to starts[i] + lengths[i] - 1 of the store. What is counted is what skriemelt_read
 * gives for each by itself, with room enough; nothing of it depends on a frame. Payloads may overlap, repeat and stand in any order. A start and length that leave the store count as
 * SKRIEMELT_OUTSIDE. Every input is answered: there is nothing to check beforehand.
 *
 * SKRIEMELT_LISTS with place n: lengths_count is not n; then SKRIEMELT_TOO_MANY with place n: n is above SKRIEMELT_MOST_ENTRIES. Then nothing is read. n may be 0. A longer segment is summarised in
 * parts, whose counters are added up: in 64 bits, since the sums of several parts may pass 32.
 *
 * The records are laid on the call's own stack, which takes about 75 kB: more than a small thread may have.
 */
SKRIEMELT_MUST_USE
skriemelt_summary skriemelt_summarise(const uint8_t *store, size_t store_bytes, const uint64_t *starts, size_t starts_count, const uint64_t *lengths, size_t lengths_count);

/*
 * Writes the payload of a programme, a timing, SKRIEMELT_RECORD_STRIDE * objects * blocks bytes of records and SKRIEMELT_TRIM_FIXED + objects bytes of a trim table:
 * the one form that the tables have. Read back with the same frame, it gives the same tables and no unknown element. Every input is answered: there is nothing to
 * check beforehand.
 *
 * Frame. The payload does not depend on it; it says which times the records must hold, those of a read with this frame. A record with another time is SKRIEMELT_NOT_VALID
 * (skriemelt_set_time lays the right one). Without blocks it is not looked at.
 *
 * Records. They lie as a read leaves them. Bytes behind the last record are not looked at, so the buffer of a read can be passed with its whole length.
 * Without blocks no record is needed, and records may be NULL with length 0.
 *
 * Trim table. It lies as a read leaves it, and is needed without a trim element too: then it is all 0. Bytes behind it are not looked at.
 *
 * Payload. The buffer need not be cleared. One of SKRIEMELT_MOST_PAYLOAD_BYTES suffices for every form that can be written. Many objects with many blocks
 * need more than that, up to 14,481 bytes: they are refused with SKRIEMELT_NO_FIT, however long the buffer is. With payload NULL and length 0, valid tables
 * are refused with SKRIEMELT_NO_FIT and their length as the place, so the length can be asked for.
 *
 * Valid are the tables of every accepted payload with SKRIEMELT_CONTENT_RESERVED clear, and all others whose programme, timing, records and trim table each
 * could stem from such a payload: what is not carried is 0; the class of each record follows from the programme; all starts leave the same remainder by 32;
 * an inactive record holds the defaults behind its class (x and y 31, z 64, elevation flag 1, all else 0), a bed or ISF record from x on, each up to its time.
 */
SKRIEMELT_MUST_USE
skriemelt_write_answer skriemelt_write(skriemelt_programme programme, skriemelt_timing timing, uint32_t frame, const uint8_t *records, size_t records_bytes,
                                       const uint8_t *trim, size_t trim_bytes, uint8_t *payload, size_t payload_bytes);

/*
 * Lists one payload, read with frame 0: the text of its listing, lines key=value, as the programs of this project print it. A payload that is refused has a listing too. No byte 0 ends the
 * text: it has `length` bytes, never more than SKRIEMELT_MOST_TEXT_BYTES. A buffer that is too short is SKRIEMELT_SHORT_TEXT with the bytes needed as the place, so with text NULL and
 * length 0 the length can be asked for. Accepted, the text is the first bytes of the buffer, and no other byte changes. The buffer need not be cleared. Every input is answered: there is
 * nothing to check beforehand.
 */
SKRIEMELT_MUST_USE
skriemelt_text_answer skriemelt_list_text(const uint8_t *payload, size_t payload_bytes, uint8_t *text, size_t text_bytes);

/*
 * Writes the catalogue of a segment of payloads, n = starts_count of them, given as in a batch: payload i is bytes starts[i] to starts[i] + lengths[i] - 1 of the store, of frame
 * frames[i]. The text holds what skriemelt_read gives for each by itself, with room enough, and of that what has changed from update to update. Payloads may overlap, repeat and
 * stand in any order, and so may frames. A start and length that leave the store are a frame refused with SKRIEMELT_OUTSIDE. Every input is answered: there is nothing to check
 * beforehand.
 *
 * The text. Lines of ASCII, each ended by LF, byte 10, the last too. A line is pairs key=number parted by commas, the numbers decimal without leading zeros. For each payload in the
 * order of the lists:
 *
 *     frame=F,refusal=R             it was refused, with R of 1 to 8 or 12; or it was not:
 *     frame=F,objects=O,blocks=B    and then B times, in the order of the blocks:
 *     start=S,ramp=P                an update, and its entries, J rising:
 *     object=J,KEY=V,..             object J, 0 to O - 1, with at least one field, in the order of a record's bytes
 *
 * KEY is the name of a byte of a record, from SKRIEMELT_RECORD_ACTIVE to SKRIEMELT_RECORD_PRECISE_Z, in small letters (active, class, .., precise_z), and V that byte. Where an
 * update has as many objects as the update before, an object has an entry if one of these 24 bytes is another than in the update before, with those that are; there may be none.
 * Else, and in the first update, every object has one, with all 24. The update before is the one before it in its frame; of a frame's first, the last one of the nearest frame before
 * that has one, in the order of the lists: refused frames and frames without blocks are passed over. The refusal's place, the programme, the trim table and unknown elements are not
 * in the text.
 *
 * The text has `length` bytes, and no byte 0 ends it. A frame takes SKRIEMELT_MOST_FRAME_TEXT_BYTES at the most; without payloads the text is empty. A buffer that is too short is
 * SKRIEMELT_SHORT_TEXT with the bytes needed as the place, so with text NULL and length 0 the length can be asked for. Accepted, the text is the first bytes of the buffer, and no
 * other byte changes. The buffer need not be cleared.
 *
 * SKRIEMELT_LISTS with place n: lengths_count or frames_count is not n; before SKRIEMELT_SHORT_TEXT. n may be 0.
 *
 * The text and the update before must overlap neither one another nor the store or the lists. The records are laid on the call's own stack, which takes about 95 kB: more than a
 * small thread may have.
 */
SKRIEMELT_MUST_USE
skriemelt_catalogue_answer skriemelt_catalogue_write(const uint8_t *store, size_t store_bytes, const uint64_t *starts, size_t starts_count, const uint64_t *lengths,
                                                     size_t lengths_count, const uint32_t *frames, size_t frames_count, uint8_t *text, size_t text_bytes);

/*
 * The same for a segment behind others: its first update is held to the update before that the call before has left in `before`, and the last update of this segment is left there
 * for the next call. With `before` all 0 it is skriemelt_catalogue_write. So a long segment is written in parts, part by part with the same `before`, and the texts one behind the
 * other are the text of the whole.
 *
 * before_bytes is sizeof(skriemelt_catalogue_before) or more. Accepted, the count and the rows of the last update are laid on the front of `before`, and no other byte of it changes;
 * where the segment has no update, those that came. Refused, `before` stays as it came, so the call can be made again with a longer text buffer.
 *
 * SKRIEMELT_NO_ROOM with place SKRIEMELT_BEFORE_BYTES: before_bytes is below that; behind SKRIEMELT_LISTS and before SKRIEMELT_SHORT_TEXT.
 */
SKRIEMELT_MUST_USE
skriemelt_catalogue_answer skriemelt_catalogue_write_on(const uint8_t *store, size_t store_bytes, const uint64_t *starts, size_t starts_count, const uint64_t *lengths,
                                                        size_t lengths_count, const uint32_t *frames, size_t frames_count, skriemelt_catalogue_before *before,
                                                        size_t before_bytes, uint8_t *text, size_t text_bytes);

/*
 * Reads a catalogue's text back: a line for each of its frames, and the records of all its updates. Every text is answered: there is nothing to check beforehand, and no byte 0 need
 * end it.
 *
 * What is written. lines[i] is frame i of the text, whole. The records lie frame after frame, SKRIEMELT_RECORD_STRIDE * objects * blocks bytes each
 * (skriemelt_catalogue_record_bytes), and in a frame as a read leaves them, objects outermost, with the times of that frame: of a text that was written, exactly what the reads of
 * its payloads gave. `frames` lines and `bytes` bytes of records are written, and no other byte changes. The buffers need not be cleared.
 *
 * SKRIEMELT_BAD_LINE with the number of a line, from 1, as the place: the first line of the text that cannot stand there. That is one
 *   - that is none of the four above, to the byte: another key or order, a key twice, too few or too many pairs, a leading zero, a blank, a sign, a CR; or the last, without its LF;
 *   - out of place: `start` without an update to come, `frame` with one to come, `object` before the first `start` of its frame or with an object not above the one before; in an
 *     update that lists every field `object` with another object than the next, or without one of the fields, `start` or `frame` before the last object;
 *   - with a number that can never stand there: a frame above 4,294,967,295, a refusal but 1 to 8 and 12, objects but 1 to 159, blocks above 8, a start above 2,047, a ramp above
 *     2,048, an object that the frame has not, a byte that no record has there, taken by itself (z 49 to 79, the others from 0 to what is said at the places in a record);
 *   - that lists a field which did not change, unless the update lists every field.
 * Where the text ends with lines missing, the place is one past its last line. The empty text is good. Of a text that is accepted there is no other spelling.
 *
 * SKRIEMELT_NO_ROOM, behind SKRIEMELT_BAD_LINE: the record buffer is too short, place the bytes that it needs; if it is not, lines_bytes is below sizeof(skriemelt_catalogue_frame)
 * for each frame, place that number of bytes. So with records NULL and length 0 the one length can be asked for, and then with lines NULL and length 0 the other. A text of 15 bytes
 * more can need 5,088 bytes of records more: for a text from elsewhere ask first, or read it in pieces.
 *
 * Lines and records must overlap neither one another nor the text or the update before. The call's stack takes about 45 kB: more than a small thread may have.
 */
SKRIEMELT_MUST_USE
skriemelt_back_answer skriemelt_catalogue_read(const uint8_t *text, size_t text_bytes, skriemelt_catalogue_frame *lines, size_t lines_bytes, uint8_t *records,
                                               size_t records_bytes);

/*
 * The same for a text behind others, with `before` as in skriemelt_catalogue_write_on; with `before` all 0 it is skriemelt_catalogue_read. So a long text is read in pieces, cut
 * where a line of a frame begins ("frame="), piece by piece with the same `before`: their lines and records one behind the other are those of the whole. The place of a
 * SKRIEMELT_BAD_LINE is counted in its piece. A piece of m frames needs at most m * SKRIEMELT_MOST_RECORD_BYTES bytes of records, and has at most m * SKRIEMELT_MOST_FRAME_TEXT_BYTES
 * bytes, if it can be accepted.
 *
 * SKRIEMELT_NO_ROOM with place SKRIEMELT_BEFORE_BYTES: before_bytes is below that; before SKRIEMELT_BAD_LINE. No records and no lines need just so many bytes.
 */
SKRIEMELT_MUST_USE
skriemelt_back_answer skriemelt_catalogue_read_on(const uint8_t *text, size_t text_bytes, skriemelt_catalogue_before *before, size_t before_bytes,
                                                  skriemelt_catalogue_frame *lines, size_t lines_bytes, uint8_t *records, size_t records_bytes);

/*
 * Why a byte of a record is what it is: where it comes from, and where that comes from, step by step, back to a field, the programme, a default or nothing carried. The byte is one of
 * the first SKRIEMELT_RECORD_BYTES of the record of an object and a block, SKRIEMELT_RECORD_ACTIVE to SKRIEMELT_RECORD_PRECISE_Z; the time behind them is not asked about. Every
 * input is answered: there is nothing to check beforehand.
 *
 * Steps. The first is the byte that was asked for. One with SKRIEMELT_SOURCE_BLOCK is followed by that of the same object in the block before, one with SKRIEMELT_SOURCE_OBJECT by
 * that of the object before in the same block; any other is the last. From the last value back to the first, each is the one behind it, or that moved by the step's difference and
 * held within 0 to 62 (x and y) or 49 to 79 (z) at each step. The last value is what the field at its bit gives, or the default, or 0.
 *
 * SKRIEMELT_TOO_LONG to SKRIEMELT_PAST_ELEMENT: as in reading. Then SKRIEMELT_NO_SUCH with place 1: object is not below the objects of the payload; else 2: block is not below its blocks, of
 * which a payload without an object element has none; else 3: byte is not below SKRIEMELT_RECORD_BYTES.
 *
 * The call goes through the payload anew for each step; it is meant for a person's questions, not for whole libraries. The records are laid on its own stack, which takes about 85 kB: more than a
 * small thread may have.
 */
SKRIEMELT_MUST_USE
skriemelt_why_answer skriemelt_why(const uint8_t *payload, size_t payload_bytes, uint32_t object, uint32_t block, uint32_t byte);

/*
 * Salvages a damaged payload: drops each known element that reading refuses with SKRIEMELT_RESERVED_VALUE to SKRIEMELT_PAST_ELEMENT, as if one read the payload, dropped the element
 * that was refused, and read again, until nothing is refused. What is left is accepted, and reads to the tables of the elements that are kept. Its element count is written anew; every
 * other bit stays, those behind the last element too, and zero bits fill the last byte. A payload that is accepted comes back as the same bytes, and so does what a salvage has left.
 * Every input is answered: there is nothing to check beforehand. The buffer needs no more bytes than the payload has; it must not overlap the payload.
 *
 * Drops. An element is looked at behind those that are kept before it: behind a dropped object element an extended one is SKRIEMELT_EXTENDED_EARLY, and another object element is no
 * second one. Places are counted in the payload as it came, also where elements were dropped before. That of SKRIEMELT_PAST_ELEMENT can be the first bit behind its element.
 *
 * SKRIEMELT_TOO_LONG, SKRIEMELT_OTHER_VERSION and SKRIEMELT_COUNTS_DISAGREE: as in reading. SKRIEMELT_RESERVED_VALUE: in the program assignment, which is no element.
 * SKRIEMELT_PAST_PAYLOAD: the payload ends early, before or behind dropped elements; where an element is cut off no other can be told. Then SKRIEMELT_NO_FIT with the bytes needed:
 * out_bytes is below that. A refused salvage reports no drop.
 *
 * The call lays records on its own stack, which takes about 70 kB: more than a small thread may have.
 */
SKRIEMELT_MUST_USE
skriemelt_salvage_answer skriemelt_salvage(const uint8_t *payload, size_t payload_bytes, uint8_t *out, size_t out_bytes);

/* A sentence for a refusal; never NULL. */
SKRIEMELT_INLINE const char *skriemelt_refusal_text(unsigned refusal)
{
    switch (refusal) {
    case SKRIEMELT_ACCEPTED: return "accepted";
    case SKRIEMELT_TOO_LONG: return "the payload is longer than 4,096 bytes";
    case SKRIEMELT_PAST_PAYLOAD: return "the payload ends before a field or an element does";
    case SKRIEMELT_OTHER_VERSION: return "the version is not 0";
    case SKRIEMELT_COUNTS_DISAGREE: return "the object count is not the number of objects that the program assignment names";
    case SKRIEMELT_RESERVED_VALUE: return "a field has a value that the standard reserves";
    case SKRIEMELT_SECOND_ELEMENT: return "an element comes a second time";
    case SKRIEMELT_EXTENDED_EARLY: return "an extended object element comes before any object element";
    case SKRIEMELT_PAST_ELEMENT: return "a field passes the end that its element declares";
    case SKRIEMELT_NO_ROOM: return "the buffer for the records, for the trim table, or for the lines or the update before of a catalogue is too short";
    case SKRIEMELT_NOT_VALID: return "the programme, the timing, a record, its time or the trim table is not valid";
    case SKRIEMELT_NO_FIT: return "the written form, or what a salvage leaves, is longer than its buffer or than 4,096 bytes";
    case SKRIEMELT_OUTSIDE: return "the payload does not lie within the store";
    case SKRIEMELT_LISTS: return "the lists differ in length, or the slots or answers of a batch do not fit their buffers";
    case SKRIEMELT_NO_SUCH: return "there is no such object, block or byte";
    case SKRIEMELT_TOO_MANY: return "there are more than 65,536 payloads";
    case SKRIEMELT_BAD_LINE: return "a line of the catalogue cannot stand where it stands, or lines are missing at its end";
    case SKRIEMELT_SHORT_TEXT: return "the text is longer than its buffer";
    }
    return "no refusal of this library";
}

/* The record of an object and a block, of the records that a read with this timing has left; NULL where there is no such block or, in an answer, object. */
SKRIEMELT_INLINE const uint8_t *skriemelt_record(const skriemelt_read_answer *answer, const uint8_t *records, unsigned object, unsigned block)
{
    if (object >= answer->programme.objects || block >= answer->timing.blocks)
        return NULL;
    return records + SKRIEMELT_RECORD_STRIDE * ((size_t)object * answer->timing.blocks + block);
}

/* The name of a byte of a record, as a catalogue has it as a key; NULL where there is no such byte, or a byte of the time. */
SKRIEMELT_INLINE const char *skriemelt_byte_name(unsigned byte)
{
    static const char *const names[SKRIEMELT_RECORD_BYTES] = {
        "active", "class", "gain", "priority", "x", "y", "z", "distance", "width", "depth", "height", "zone", "elevation", "screen", "screen_factor", "screen_depth", "snap",
        "divergence", "divergence_mode", "divergence_value", "precise", "precise_x", "precise_y", "precise_z"};

    return byte < SKRIEMELT_RECORD_BYTES ? names[byte] : NULL;
}

/* The name that the standard prints for a field of a step; NULL where there is none. */
SKRIEMELT_INLINE const char *skriemelt_field_name(unsigned field)
{
    static const char *const names[SKRIEMELT_FIELD_PRECISE_Z + 1] = {
        NULL,
        "b_object_not_active",
        "object_gain_idx",
        "object_gain_bits",
        "b_default_object_priority",
        "object_priority_bits",
        "diff_pos3D_X_bits",
        "diff_pos3D_Y_bits",
        "diff_pos3D_Z_bits",
        "pos3D_X_bits",
        "pos3D_Y_bits",
        "pos3D_Z_bits",
        "b_object_distance_specified",
        "b_object_at_infinity",
        "distance_factor_idx",
        "zone_constraints_idx",
        "b_enable_elevation",
        "object_size_idx",
        "object_size_bits",
        "object_width_bits",
        "object_depth_bits",
        "object_height_bits",
        "b_object_use_screen_ref",
        "screen_factor_bits",
        "depth_factor_idx",
        "b_object_snap",
        "b_object_divergence",
        "object_div_mode",
        "object_div_table",
        "object_div_code",
        "ext_prec_pos_presence[]",
        "ext_prec_pos3D_X",
        "ext_prec_pos3D_Y",
        "ext_prec_pos3D_Z"};

    return field <= SKRIEMELT_FIELD_PRECISE_Z ? names[field] : NULL;
}

/* A word for a source: field, programme, default (of either table), nothing, block or object; NULL where there is none. */
SKRIEMELT_INLINE const char *skriemelt_source_word(unsigned source)
{
    static const char *const words[SKRIEMELT_SOURCE_OBJECT + 1] = {NULL, "field", "programme", "default", "default", "nothing", "block", "object"};

    return source <= SKRIEMELT_SOURCE_OBJECT ? words[source] : NULL;
}

/* What a known element is called, by its id; NULL for any other id. */
SKRIEMELT_INLINE const char *skriemelt_element_name(unsigned id)
{
    switch (id) {
    case SKRIEMELT_ELEMENT_OBJECT: return "object element";
    case SKRIEMELT_ELEMENT_TRIM: return "trim element";
    case SKRIEMELT_ELEMENT_EXTENDED: return "extended object element";
    }
    return NULL;
}

/* What a step's difference adds, -4 to 3; 0 where there is none. */
SKRIEMELT_INLINE int skriemelt_difference(const skriemelt_why_step *step)
{
    int bits = step->difference & 7;

    return bits < 4 ? bits : bits - 8;
}

/* How many bytes of records a frame of a catalogue has: those of the next frame begin behind them. */
SKRIEMELT_INLINE size_t skriemelt_catalogue_record_bytes(const skriemelt_catalogue_frame *line)
{
    return (size_t)SKRIEMELT_RECORD_STRIDE * line->objects * line->blocks;
}

/* A record's time in samples from the first sample of frame 0: when its block starts. */
SKRIEMELT_INLINE uint64_t skriemelt_time(const uint8_t *record)
{
    uint64_t time = 0;
    unsigned i;

    for (i = SKRIEMELT_RECORD_STRIDE; i > SKRIEMELT_RECORD_TIME; i--)
        time = time << 8 | record[i - 1];
    return time;
}

/* Lays the time of a record whose block starts at `start` of a frame, as a write with that frame needs it. */
SKRIEMELT_INLINE void skriemelt_set_time(uint8_t *record, uint32_t frame, uint16_t start)
{
    uint64_t time = (uint64_t)SKRIEMELT_FRAME_SAMPLES * frame + start;
    unsigned i;

    for (i = SKRIEMELT_RECORD_TIME; i < SKRIEMELT_RECORD_STRIDE; i++, time >>= 8)
        record[i] = (uint8_t)(time & 255);
}

/* A record's gain in dB; -HUGE_VAL for minus infinity. */
SKRIEMELT_INLINE double skriemelt_gain_db(const uint8_t *record)
{
    return record[SKRIEMELT_RECORD_GAIN] == 0 ? -HUGE_VAL : record[SKRIEMELT_RECORD_GAIN] - 50.0;
}

/* What a code of the precise position adds, in fifths of a step (Tables 44 to 46); `bit` is its presence bit. */
SKRIEMELT_INLINE int skriemelt_precise_fifths(const uint8_t *record, unsigned bit, unsigned code)
{
    if ((record[SKRIEMELT_RECORD_PRECISE] & bit) == 0)
        return 0;
    return code < 2 ? (int)code + 1 : 1 - (int)code;
}

/*
 * A record's position, the precise position added, by the equations of 5.6.1.1: x and y from 0 to 1, z from -1 to 1; a precise code can lead up to two fifths of a step
 * beyond, but not beyond x or y 1.
 */
SKRIEMELT_INLINE double skriemelt_x(const uint8_t *record)
{
    double x = (5 * record[SKRIEMELT_RECORD_X] + skriemelt_precise_fifths(record, 1, record[SKRIEMELT_RECORD_PRECISE_X])) / 310.0;

    return x < 1 ? x : 1;
}

SKRIEMELT_INLINE double skriemelt_y(const uint8_t *record)
{
    double y = (5 * record[SKRIEMELT_RECORD_Y] + skriemelt_precise_fifths(record, 2, record[SKRIEMELT_RECORD_PRECISE_Y])) / 310.0;

    return y < 1 ? y : 1;
}

SKRIEMELT_INLINE double skriemelt_z(const uint8_t *record)
{
    return (5 * (record[SKRIEMELT_RECORD_Z] - 64) + skriemelt_precise_fifths(record, 4, record[SKRIEMELT_RECORD_PRECISE_Z])) / 75.0;
}

/*
 * The channel or channels that a bit of a bed's assignment stands for, bit 0 the one of weight 1 (Tables 12 and 13, without the prefix RC_); NULL where there is no such
 * bit. A standard bit may stand for two channels, "L R"; then the bed has an object for each. An LFE-only bed has one channel: bit 0, "LFE".
 */
SKRIEMELT_INLINE const char *skriemelt_channel_label(const skriemelt_bed *bed, unsigned bit)
{
    static const char *const standard[10] = {"L R", "C", "LFE", "LS RS", "LB RB", "TFL TFR", "TSL TSR", "TBL TBR", "LW RW", "LFE2"};
    static const char *const other[17] = {"L", "R", "C", "LFE", "LS", "RS", "LB", "RB", "TFL", "TFR", "TSL", "TSR", "TBL", "TBR", "LW", "RW", "LFE2"};

    if (bed->lfeonly)
        return bit == 0 ? "LFE" : NULL;
    if (bed->standard)
        return bit < 10 ? standard[bit] : NULL;
    return bit < 17 ? other[bit] : NULL;
}

/* How many objects a bed has: one for each of its channels. */
SKRIEMELT_INLINE unsigned skriemelt_bed_objects(const skriemelt_bed *bed)
{
    unsigned bit, objects = 0;

    if (bed->lfeonly)
        return 1;
    for (bit = 0; skriemelt_channel_label(bed, bit) != NULL; bit++) {
        if ((bed->assignment >> bit & 1) != 0)
            objects += bed->standard && bit != 1 && bit != 2 && bit != 9 ? 2 : 1;
    }
    return objects;
}

/* How many objects there are of each class; they stand in this order. */
typedef struct skriemelt_counts {
    unsigned bed, isf, dynamic;
} skriemelt_counts;

/* The counts of an accepted payload's programme. */
SKRIEMELT_INLINE skriemelt_counts skriemelt_counts_of(const skriemelt_programme *programme)
{
    static const unsigned char isf_objects[6] = {4, 8, 10, 14, 15, 30};
    skriemelt_counts counts = {0, 0, 0};
    unsigned i;

    if (programme->dynonly) {
        counts.bed = programme->lfe;
    } else {
        for (i = 0; i < programme->bedcount && i < SKRIEMELT_MOST_BEDS; i++)
            counts.bed += skriemelt_bed_objects(&programme->beds[i]);
        if ((programme->content & SKRIEMELT_CONTENT_ISF) != 0 && programme->isf < 6)
            counts.isf = isf_objects[programme->isf];
    }
    if (counts.bed + counts.isf < programme->objects)
        counts.dynamic = programme->objects - counts.bed - counts.isf;
    return counts;
}

#ifdef __cplusplus
}
#endif

#endif
