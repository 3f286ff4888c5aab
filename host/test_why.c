/*
 * skriemelt_why: answers whose bits are counted by hand, every source and every field, the longest chain, refusals and their order, and every byte of every vector and of the sample against its
 * read: the first value is the record's, each step leads to the next, and the bits at a field's place give the last value.
 * Arguments: samples/three-objects.oamd, crates/vectors/data/payloads.
 */
#include "bits.h"
#include "test.h"

/* Two dynamic objects, two blocks, an object element and an extended element. */
static const uint8_t two[25] = {0x03, 0x08, 0x42, 0x00, 0x40, 0x01, 0x29, 0x48, 0x2A, 0x54, 0x20, 0x58, 0xEA, 0x81, 0x8F, 0xF8, 0x0F, 0x08, 0x1C, 0x4C, 0x05, 0x22, 0xD0, 0xD0, 0x00};

/* One object and an unknown element. */
static const uint8_t no_blocks[4] = {0x01, 0x07, 0xC1, 0x00};

static unsigned seen_sources[SKRIEMELT_SOURCE_OBJECT + 1], seen_fields[SKRIEMELT_FIELD_PRECISE_Z + 1];

/* The call, on a copy of just the payload's length, so that the address sanitizer sees a step out of it; the copy stays as it was. */
static skriemelt_why_answer ask(const uint8_t *payload, size_t bytes, uint32_t object, uint32_t block, uint32_t byte)
{
    uint8_t *copy = calloc(bytes ? bytes : 1, 1);
    skriemelt_why_answer a;

    if (copy == NULL)
        exit(2);
    if (bytes > 0)
        memcpy(copy, payload, bytes);
    a = skriemelt_why(copy, bytes, object, block, byte);
    if (bytes > 0 && memcmp(copy, payload, bytes) != 0)
        check(0, "the payload stays");
    free(copy);
    return a;
}

static int is_empty(const skriemelt_why_step *s)
{
    return s->bit == 0 && s->object == 0 && s->block == 0 && s->value == 0 && s->source == 0 && s->field == 0 && s->difference == 0;
}

/* Whether the entries from count on are 0. */
static int rest_is_empty(const skriemelt_why_answer *a)
{
    unsigned i;

    for (i = a->count; i < SKRIEMELT_MOST_STEPS; i++) {
        if (!is_empty(&a->steps[i]))
            return 0;
    }
    return 1;
}

/* A step as the program prints it, behind the others. */
static size_t lay_step(char *text, size_t at, size_t room, const skriemelt_why_step *s)
{
    const char *name = skriemelt_field_name(s->field);
    int n = snprintf(text + at, room - at, "%s%u,%u,%u,%s", at == 0 ? "" : " ", s->object, s->block, s->value, skriemelt_source_word(s->source));

    if (s->source == SKRIEMELT_SOURCE_BASIC_DEFAULT || s->source == SKRIEMELT_SOURCE_RENDER_DEFAULT)
        n += snprintf(text + at + n, room - at - (size_t)n, ",%u", 25U + s->source);
    if (name != NULL)
        n += snprintf(text + at + n, room - at - (size_t)n, ",%s,%lu", name, (unsigned long)s->bit);
    if (name != NULL && s->source == SKRIEMELT_SOURCE_BLOCK)
        n += snprintf(text + at + n, room - at - (size_t)n, ",%d", skriemelt_difference(s));
    return at + (size_t)n;
}

/* The answer is accepted, and its steps are these. */
static void answers(const uint8_t *payload, size_t bytes, uint32_t object, uint32_t block, uint32_t byte, const char *steps)
{
    skriemelt_why_answer a = ask(payload, bytes, object, block, byte);
    char text[1000] = "";
    size_t at = 0;
    unsigned i;

    for (i = 0; i < a.count && i < 12; i++) {
        at = lay_step(text, at, sizeof text, &a.steps[i]);
        seen_sources[a.steps[i].source]++;
        seen_fields[a.steps[i].field]++;
    }
    check(a.refusal == SKRIEMELT_ACCEPTED && a.place == 0 && a.missing == 0 && rest_is_empty(&a), steps);
    check(strcmp(text, steps) == 0, steps);
}

/* The answer is a refusal, and all else is 0. */
static void refuses(const uint8_t *payload, size_t bytes, uint32_t object, uint32_t block, uint32_t byte, uint8_t refusal, uint64_t place, uint32_t missing, const char *what)
{
    skriemelt_why_answer a = ask(payload, bytes, object, block, byte);

    check(a.refusal == refusal && a.place == place && a.missing == missing, what);
    check(a.count == 0 && rest_is_empty(&a), "a refusal has no step");
}

static void worked(void)
{
    answers(two, 25, 1, 1, 2, "1,1,44,block 1,0,44,object 0,0,44,field,object_gain_bits,54");
    answers(two, 25, 0, 1, 4, "0,1,0,block,diff_pos3D_X_bits,98,-3 0,0,1,field,pos3D_X_bits,61");
    answers(two, 25, 0, 1, 6, "0,1,65,block,diff_pos3D_Z_bits,104,-4 0,0,69,field,pos3D_Z_bits,74");
    answers(two, 25, 1, 0, 4, "1,0,62,field,pos3D_X_bits,119");
    answers(two, 25, 0, 1, 11, "0,1,0,block 0,0,0,field,zone_constraints_idx,79");
    answers(two, 25, 0, 1, 16, "0,1,0,field,b_object_snap,108");
    answers(two, 25, 0, 0, 1, "0,0,2,programme");
    answers(two, 25, 0, 0, 17, "0,0,0,field,b_object_divergence,175");
    answers(two, 25, 0, 0, 18, "0,0,0,nothing");
    answers(two, 25, 0, 1, 19, "0,1,33,field,object_div_code,179");
    answers(two, 25, 1, 0, 19, "1,0,0,nothing"); /* mode 1 */
}

/* A bed object and a dynamic one, three blocks; the first bit of each line stands beside it. */
static const char three[] =
    "00 00001 1 1 0 0010"                                                              /* 0: version, objects, dynamic only with LFE, no alternate ids, two elements */
    " 0001 0000 1 1111 0"                                                              /* 14: the object element, 32 bytes */
    " 0 00 010 000000 00 000001 00 000010 00 1"                                        /* 28: timing */
    " 0 10 001111 0 10001 0"                                                           /* 59: object 0; gain idx 60, bits 62, priority 69 */
    " 0 10 0"                                                                          /* 75: reuse */
    " 0 11 01 01 0"                                                                    /* 79: mixed, gain idx 84 */
    " 0 11 0 00111 000010 111111 0 1111 0 100 0 01 00110 1 101 10 1 0"                 /* 87: object 1; priority 91, x 96, y 102, z 109, zone 114, size 118, screen 125 */
    " 0 01 11 1 11 0101 1 100 001 110 1 0 1001 10 00001 00010 00011 0 1 0000 00000000" /* 133: differences 146, distance 155, size 161, snap 178, additional data 179 */
    " 0 10 11 0001 1 011 111 010 1 1 1 0"                                              /* 192: differences 202, distance 211, snap 213 */
    " 000000000000000000000000000000000000000000000000000000000000000000000"           /* 215: up to 32 bytes from bit 28 */
    " 0101 0011 0"                                                                     /* 284: the extended element, 4 bytes */
    " 0 1 1 00 11 1 01 0 1 1 011 10 11 0 1 000 0000000";                               /* 293: divergence 295, 300, 303; precise 305, 313, 314 */

static void counted(void)
{
    uint8_t p[64];
    size_t n = bytes_of(three, p);

    answers(p, n, 0, 0, 0, "0,0,1,field,b_object_not_active,59");
    answers(p, n, 0, 0, 1, "0,0,0,programme");
    answers(p, n, 0, 1, 2, "0,1,49,block 0,0,49,field,object_gain_bits,62");
    answers(p, n, 0, 1, 3, "0,1,17,block 0,0,17,field,object_priority_bits,69");
    answers(p, n, 0, 2, 2, "0,2,0,field,object_gain_idx,84");
    answers(p, n, 0, 2, 4, "0,2,31,default,29");
    answers(p, n, 0, 0, 20, "0,0,0,nothing");
    answers(p, n, 1, 2, 2, "1,2,49,block 1,1,49,object 0,1,49,block 0,0,49,field,object_gain_bits,62");
    answers(p, n, 1, 0, 3, "1,0,7,field,object_priority_bits,91");
    answers(p, n, 1, 2, 3, "1,2,32,block 1,1,32,field,b_default_object_priority,138");
    /* 2 - 4 stays at 0, + 3 is 3; 62 + 1 stays at 62, - 1 is 61; -15 - 2 stays at -15, + 2 is -13 */
    answers(p, n, 1, 2, 4, "1,2,3,block,diff_pos3D_X_bits,202,3 1,1,0,block,diff_pos3D_X_bits,146,-4 1,0,2,field,pos3D_X_bits,96");
    answers(p, n, 1, 2, 5, "1,2,61,block,diff_pos3D_Y_bits,205,-1 1,1,62,block,diff_pos3D_Y_bits,149,1 1,0,62,field,pos3D_Y_bits,102");
    answers(p, n, 1, 2, 6, "1,2,51,block,diff_pos3D_Z_bits,208,2 1,1,49,block,diff_pos3D_Z_bits,152,-2 1,0,49,field,pos3D_Z_bits,109");
    answers(p, n, 1, 0, 7, "1,0,0,field,b_object_distance_specified,113");
    answers(p, n, 1, 1, 7, "1,1,11,field,distance_factor_idx,157");
    answers(p, n, 1, 2, 7, "1,2,1,field,b_object_at_infinity,212");
    answers(p, n, 1, 0, 9, "1,0,6,field,object_size_bits,120");
    answers(p, n, 1, 2, 8, "1,2,1,block 1,1,1,field,object_width_bits,163");
    answers(p, n, 1, 1, 9, "1,1,2,field,object_depth_bits,168");
    answers(p, n, 1, 1, 10, "1,1,3,field,object_height_bits,173");
    answers(p, n, 1, 2, 11, "1,2,4,block 1,1,4,block 1,0,4,field,zone_constraints_idx,114");
    answers(p, n, 1, 0, 12, "1,0,0,field,b_enable_elevation,117");
    answers(p, n, 1, 0, 13, "1,0,1,field,b_object_use_screen_ref,125");
    answers(p, n, 1, 0, 14, "1,0,5,field,screen_factor_bits,126");
    answers(p, n, 1, 1, 15, "1,1,2,block 1,0,2,field,depth_factor_idx,129");
    answers(p, n, 1, 1, 16, "1,1,0,field,b_object_snap,178");
    answers(p, n, 1, 0, 17, "1,0,1,field,b_object_divergence,295");
    answers(p, n, 1, 0, 18, "1,0,0,field,object_div_mode,296");
    answers(p, n, 1, 0, 19, "1,0,3,field,object_div_table,298");
    answers(p, n, 1, 1, 18, "1,1,1,field,object_div_mode,301");
    answers(p, n, 1, 1, 19, "1,1,0,nothing");
    answers(p, n, 1, 2, 17, "1,2,0,field,b_object_divergence,303");
    answers(p, n, 1, 0, 20, "1,0,3,field,ext_prec_pos_presence[],306");
    answers(p, n, 1, 0, 21, "1,0,2,field,ext_prec_pos3D_X,309");
    answers(p, n, 1, 0, 22, "1,0,3,field,ext_prec_pos3D_Y,311");
    answers(p, n, 1, 0, 23, "1,0,0,nothing");
    answers(p, n, 1, 1, 20, "1,1,0,nothing");
    answers(p, n, 1, 2, 20, "1,2,0,field,ext_prec_pos_presence[],315");
}

/* What the payloads above do not have: index 3 at the first object, sizes by their index, defaults by status and in a block that is not active, and a code of z. */
static void rest(void)
{
    static const char digits[] =
        "00 00000 1 0 0 0010"                      /* 0 */
        " 0001 1011 0"                             /* 14: 12 bytes, from 23 on */
        " 0 00 010 000000 00 000000 00 000000 00 1" /* 23 */
        " 0 11 1 000001 000010 1 0011 0 001 1 00 0 0 0" /* 54: gain idx 55, size idx 80 */
        " 1 0"                                     /* 85 */
        " 0 00 00 0"                               /* 87 */
        " 00000000000000000000000000"              /* 93 to 118 */
        " 0101 0001 0"                             /* 119: 2 bytes, from 128 on */
        " 0 0 1 1 100 01 0 000000";                /* 128: presence 132, z 135, block 2's flag 137 */
    uint8_t p[32];
    size_t n = bytes_of(digits, p);

    answers(p, n, 0, 0, 2, "0,0,50,field,object_gain_idx,55");
    answers(p, n, 0, 0, 10, "0,0,0,field,object_size_idx,80");
    answers(p, n, 0, 0, 15, "0,0,0,field,b_object_use_screen_ref,82");
    answers(p, n, 0, 1, 0, "0,1,0,field,b_object_not_active,85");
    answers(p, n, 0, 1, 2, "0,1,0,default,28");
    answers(p, n, 0, 1, 12, "0,1,1,default,29");
    answers(p, n, 0, 2, 3, "0,2,0,default,28");
    answers(p, n, 0, 2, 6, "0,2,64,default,29");
    answers(p, n, 0, 0, 17, "0,0,0,nothing");
    answers(p, n, 0, 0, 20, "0,0,4,field,ext_prec_pos_presence[],132");
    answers(p, n, 0, 0, 23, "0,0,1,field,ext_prec_pos3D_Z,135");
    answers(p, n, 0, 1, 20, "0,1,0,nothing");
    answers(p, n, 0, 2, 20, "0,2,0,nothing");
}

/* Every source and every field has been among the answers so far. */
static void all_seen(void)
{
    unsigned i;

    for (i = 1; i <= SKRIEMELT_SOURCE_OBJECT; i++)
        check(seen_sources[i] > 0, "every source");
    for (i = 1; i <= SKRIEMELT_FIELD_PRECISE_Z; i++)
        check(seen_fields[i] > 0, skriemelt_field_name(i));
}

static char *add(char *to, const char *digits, unsigned times)
{
    for (; times > 0; times--) {
        strcpy(to, digits);
        to += strlen(digits);
    }
    return to;
}

/*
 * 159 objects, each with gain index 3 in block 0; the last one takes its gain over seven times, the others are not active from block 1 on. 21 bits up to the element, 19 of id and size; the
 * element has 71 bits of timing, 158 objects of 45 bits and one of 73: 7,254 bits, 907 bytes.
 */
static void longest(void)
{
    static char digits[9000];
    static uint8_t p[1000];
    const char *first = "0111000000000000000000000000000"; /* 31 bits: active, index 3, default priority, and no bit more that is 1 */
    char *to = add(digits, "00 11111 1111111 1 0 0 0001 0001 0010 1 0111 1 1010 0 000111", 1);
    skriemelt_why_answer a;
    unsigned i;
    size_t n;

    to = add(to, "00000000", 8);
    to = add(to, "1", 1);
    for (i = 0; i < 158; i++) {
        to = add(to, first, 1);
        to = add(to, "10", 7);
    }
    to = add(to, first, 1);
    add(to, "010100", 7);
    n = bytes_of(digits, p);
    a = ask(p, n, 158, 7, SKRIEMELT_RECORD_GAIN);
    check(a.refusal == SKRIEMELT_ACCEPTED && a.count == SKRIEMELT_MOST_STEPS, "166 steps");
    for (i = 0; i < SKRIEMELT_MOST_STEPS; i++) {
        const skriemelt_why_step *s = &a.steps[i];

        check(s->object == (i < 8 ? 158 : 165 - i) && s->block == (i < 8 ? 7 - i : 0) && s->value == 50, "a step of the longest chain");
        check(s->source == (i < 7 ? SKRIEMELT_SOURCE_BLOCK : i < 165 ? SKRIEMELT_SOURCE_OBJECT : SKRIEMELT_SOURCE_FIELD), "its source");
        check(s->field == (i < 165 ? 0 : SKRIEMELT_FIELD_GAIN_IDX) && s->bit == (i < 165 ? 0 : 21 + 19 + 71 + 1) && s->difference == 0, "its field");
    }
    answers(p, n, 158, 0, SKRIEMELT_RECORD_PRIORITY, "158,0,32,field,b_default_object_priority,7224"); /* 21 + 19 + 71 + 158 * 45 + 3 */
    answers(p, n, 158, 7, SKRIEMELT_RECORD_X, "158,7,0,block 158,6,0,block 158,5,0,block 158,4,0,block 158,3,0,block 158,2,0,block 158,1,0,block 158,0,0,field,pos3D_X_bits,7225");
    answers(p, n, 157, 1, SKRIEMELT_RECORD_GAIN, "157,1,0,default,28");
}

/* Refusals 1 to 8 come first, as a read gives them, whatever is asked for; then 14. */
static void refusals(void)
{
    static const char *const refused[6] = {
        "01 00000 0",                                                                                      /* 3: another version */
        "00 00000 0 0000",                                                                                 /* 4: counts disagree */
        "00 00000 0 0010 110",                                                                             /* 5: a reserved value */
        "00 00000 1 0 0 0010 0001 0010 0 0 00 000 000000 00 1 1 0 0000000 0001 0010 0 000000000000000000000000", /* 6: a second element */
        "00 00000 1 0 0 0001 0101 0000 0 00000000",                                                        /* 7: extended too early */
        "00 00000 1 0 0 0001 0001 0000 0 0 00 000 00 0",                                                   /* 8: a field past its element */
    };
    static const uint64_t places[6] = {0, 12, 12, 47, 14, 29};
    static uint8_t longer[SKRIEMELT_MOST_PAYLOAD_BYTES + 1];
    uint8_t p[32];
    size_t n;
    unsigned i;

    refuses(longer, sizeof longer, 0, 0, 0, SKRIEMELT_TOO_LONG, sizeof longer, 0, "too long");
    refuses(NULL, 0, 0, 0, 0, SKRIEMELT_PAST_PAYLOAD, 0, 2, "no payload");
    refuses(no_blocks, 3, 200, 9, 24, SKRIEMELT_PAST_PAYLOAD, 18, 7, "cut");
    for (i = 0; i < 6; i++) {
        n = bytes_of(refused[i], p);
        refuses(p, n, 0, 0, 0, (uint8_t)(SKRIEMELT_OTHER_VERSION + i), places[i], 0, "refused as in reading");
        refuses(p, n, UINT32_MAX, UINT32_MAX, UINT32_MAX, (uint8_t)(SKRIEMELT_OTHER_VERSION + i), places[i], 0, "refused first");
    }
    refuses(two, 25, 2, 0, 0, SKRIEMELT_NO_SUCH, 1, 0, "no such object");
    refuses(two, 25, 2, 2, 24, SKRIEMELT_NO_SUCH, 1, 0, "the object first");
    refuses(two, 25, 0, 2, 24, SKRIEMELT_NO_SUCH, 2, 0, "no such block");
    refuses(two, 25, 0, 0, 24, SKRIEMELT_NO_SUCH, 3, 0, "no such byte: the time");
    refuses(no_blocks, 4, 0, 0, 0, SKRIEMELT_NO_SUCH, 2, 0, "no object element, no block");
    refuses(no_blocks, 4, 1, 0, 0, SKRIEMELT_NO_SUCH, 1, 0, "and no second object");
    refuses(two, 25, 256, 0, 0, SKRIEMELT_NO_SUCH, 1, 0, "object 256 is not object 0");
    refuses(two, 25, 0, 256, 0, SKRIEMELT_NO_SUCH, 2, 0, "block 256 is not block 0");
    refuses(two, 25, 0, 0, 65536, SKRIEMELT_NO_SUCH, 3, 0, "byte 65536 is not byte 0");
    refuses(two, 25, 1, 1, UINT32_MAX, SKRIEMELT_NO_SUCH, 3, 0, "the last number");
}

/* Of the bits from `at` on, so many as a number. */
static unsigned bits_at(const uint8_t *p, size_t at, unsigned width)
{
    unsigned value = 0;

    for (; width > 0; width--, at++)
        value = value << 1 | ((unsigned)p[at / 8] >> (7 - at % 8) & 1);
    return value;
}

/* What a field gives its byte: its bits, as the tables of the standard read them. */
static unsigned given(const uint8_t *p, const skriemelt_why_step *s)
{
    static const unsigned char widths[SKRIEMELT_FIELD_PRECISE_Z + 1] = {0, 1, 2, 6, 1, 5, 3, 3, 3, 6, 6, 4, 1, 1, 4, 3, 1, 2, 5, 5, 5, 5, 1, 3, 2, 1, 1, 2, 2, 6, 3, 2, 2, 2};
    unsigned n = bits_at(p, s->bit, widths[s->field]);

    switch (s->field) {
    case SKRIEMELT_FIELD_NOT_ACTIVE: return 1 - n;
    case SKRIEMELT_FIELD_GAIN_IDX: return n == 1 ? 0 : 50;
    case SKRIEMELT_FIELD_GAIN_BITS: return n < 15 ? 65 - n : 64 - n;
    case SKRIEMELT_FIELD_DEFAULT_PRIORITY: return 32 * n;
    case SKRIEMELT_FIELD_X:
    case SKRIEMELT_FIELD_Y: return n < 62 ? n : 62;
    case SKRIEMELT_FIELD_Z: return bits_at(p, s->bit - 1, 1) ? 64 + n : 64 - n;
    case SKRIEMELT_FIELD_DISTANCE_IDX: return n + 2;
    }
    return n;
}

/* What a step must be worth, by the step behind it. */
static unsigned worth(const uint8_t *p, unsigned byte, const skriemelt_why_step *s, const skriemelt_why_step *behind)
{
    static const unsigned char defaults[SKRIEMELT_RECORD_BYTES] = {0, 0, 0, 0, 31, 31, 64, 0, 0, 0, 0, 0, 1};
    int least = byte == SKRIEMELT_RECORD_Z ? 49 : 0, most = byte == SKRIEMELT_RECORD_Z ? 79 : 62, moved;

    switch (s->source) {
    case SKRIEMELT_SOURCE_FIELD: return given(p, s);
    case SKRIEMELT_SOURCE_PROGRAMME: return s->value;
    case SKRIEMELT_SOURCE_BLOCK:
        if (s->field == SKRIEMELT_FIELD_NONE)
            return behind->value;
        moved = behind->value + skriemelt_difference(s);
        return bits_at(p, s->bit, 3) != s->difference ? 256 : (unsigned)(moved < least ? least : moved > most ? most : moved);
    case SKRIEMELT_SOURCE_OBJECT: return behind->value;
    }
    return defaults[byte];
}

/* One byte of a record, whose value the read gave. */
static void one_byte(const uint8_t *p, size_t n, unsigned object, unsigned block, unsigned byte, uint8_t value)
{
    skriemelt_why_answer a = skriemelt_why(p, n, object, block, byte);
    int holds = a.refusal == SKRIEMELT_ACCEPTED && a.count >= 1 && a.count <= object + block + 1 && a.steps[0].value == value;
    unsigned i;

    for (i = 0; i < a.count && holds; i++) {
        const skriemelt_why_step *s = &a.steps[i];
        int leads = s->source == SKRIEMELT_SOURCE_BLOCK || s->source == SKRIEMELT_SOURCE_OBJECT;

        holds = s->object == object && s->block == block && leads == (i + 1 < a.count) && worth(p, byte, s, s + 1) == s->value;
        block -= s->source == SKRIEMELT_SOURCE_BLOCK;
        object -= s->source == SKRIEMELT_SOURCE_OBJECT;
    }
    check(holds && rest_is_empty(&a), "every byte of a payload");
}

/* A payload: as it is refused, or every byte of its records; of one with many, those of the first and of the last objects. */
static void one_payload(const uint8_t *p, size_t n)
{
    static uint8_t records[SKRIEMELT_MOST_RECORD_BYTES], trim[SKRIEMELT_MOST_TRIM_BYTES];
    skriemelt_read_answer a = skriemelt_read(p, n, 0, records, sizeof records, trim, sizeof trim);
    unsigned object, block, byte;

    if (a.refusal != SKRIEMELT_ACCEPTED) {
        refuses(p, n, 0, 0, 0, a.refusal, a.place, a.missing, "a refused payload");
        return;
    }
    refuses(p, n, a.programme.objects, 0, 0, SKRIEMELT_NO_SUCH, 1, 0, "one object too many");
    refuses(p, n, 0, a.timing.blocks, 0, SKRIEMELT_NO_SUCH, 2, 0, "one block too many");
    for (object = 0; object < a.programme.objects; object++) {
        if (object == 4 && a.programme.objects > 8)
            object = a.programme.objects - 4U;
        for (block = 0; block < a.timing.blocks; block++) {
            for (byte = 0; byte < SKRIEMELT_RECORD_BYTES; byte++)
                one_byte(p, n, object, block, byte, skriemelt_record(&a, records, object, block)[byte]);
        }
    }
}

static size_t whole(const char *name, uint8_t *all, size_t room)
{
    FILE *file = fopen(name, "rb");
    size_t bytes;

    if (file == NULL) {
        perror(name);
        exit(2);
    }
    bytes = fread(all, 1, room, file);
    fclose(file);
    return bytes;
}

int main(int argc, char **argv)
{
    static uint8_t all[1 << 22];
    size_t bytes, at, n;

    if (argc != 3)
        return 2;
    worked();
    counted();
    rest();
    all_seen();
    longest();
    refusals();
    one_payload(all, whole(argv[1], all, sizeof all));
    bytes = whole(argv[2], all, sizeof all);
    for (at = 0; at + 2 <= bytes; at += 2 + n) {
        n = 256U * all[at] + all[at + 1];
        one_payload(all + at + 2, n);
    }
    return finish("test_why");
}
