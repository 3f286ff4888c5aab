/*
 * Every vector of crates/vectors/data/payloads through skriemelt_list_text: the listing of crates/vectors/stdout, in buffers of just its length, longer, shorter and none.
 * Arguments: the payloads, the expected lines; of these the listing's are taken.
 */
#include "test.h"
#include "lent.h"

#define MOST_EXPECTED (1 << 22)

static uint8_t payloads[MOST_EXPECTED];
static char expected[MOST_EXPECTED];

static size_t take(const char *name, void *bytes)
{
    FILE *file = fopen(name, "rb");
    size_t n;

    if (file == NULL) {
        perror(name);
        exit(2);
    }
    n = fread(bytes, 1, MOST_EXPECTED - 1, file);
    fclose(file);
    return n;
}

/* Whether a line is one of a listing. */
static int listed(const char *line)
{
    static const char *const keys[] = {"refusal=", "place=", "missing=", "objects=", "bed=", "isf=", "dynamic=", "blocks=", "unknown=", "block=", "record="};
    size_t i;

    for (i = 0; i < sizeof keys / sizeof keys[0]; i++) {
        if (strncmp(line, keys[i], strlen(keys[i])) == 0)
            return 1;
    }
    return 0;
}

/* Takes the next vector's listing from the expected lines; where the lines behind it begin. */
static const char *next_listing(const char *at, char *listing, size_t *bytes)
{
    *bytes = 0;
    check(strncmp(at, "vector=", 7) == 0, "an expected text begins with its number");
    do {
        const char *line = strchr(at, '\n') + 1;
        size_t length = (size_t)(line - at);

        if (listed(at)) {
            memcpy(listing + *bytes, at, length);
            *bytes += length;
        }
        at = line;
    } while (*at != '\0' && strncmp(at, "vector=", 7) != 0);
    return at;
}

/* Lists into a buffer of `room` bytes: the text if it fits, else the bytes needed and nothing laid. */
static void list_into(const uint8_t *payload, size_t payload_bytes, const char *listing, size_t bytes, size_t room)
{
    static uint8_t all[SIDE + SKRIEMELT_MOST_TEXT_BYTES + 100 + SIDE];
    uint8_t *text = lent(all, 0, room);
    skriemelt_text_answer a = skriemelt_list_text(payload, payload_bytes, text, room);

    if (room >= bytes) {
        check(a.refusal == SKRIEMELT_ACCEPTED && a.place == 0 && a.length == bytes, "the listing is accepted");
        check(memcmp(text, listing, bytes) == 0, "the listing is the expected one");
        check(untouched(all, 0, room, bytes), "nothing but the listing is laid");
    } else {
        check(a.refusal == SKRIEMELT_SHORT_TEXT && a.place == bytes && a.length == 0, "a short buffer is refused with the bytes needed");
        check(untouched(all, 0, room, 0), "a refused listing lays nothing");
    }
}

static void list_vector(const uint8_t *payload, size_t payload_bytes, const char *listing, size_t bytes)
{
    skriemelt_text_answer none = skriemelt_list_text(payload, payload_bytes, NULL, 0);

    check(none.refusal == SKRIEMELT_SHORT_TEXT && none.place == bytes && none.length == 0, "the length can be asked for");
    list_into(payload, payload_bytes, listing, bytes, bytes);
    list_into(payload, payload_bytes, listing, bytes, bytes + 1);
    list_into(payload, payload_bytes, listing, bytes, bytes - 1);
    list_into(payload, payload_bytes, listing, bytes, 1);
    list_into(payload, payload_bytes, listing, bytes, SKRIEMELT_MOST_TEXT_BYTES);
}

int main(int argc, char **argv)
{
    static char listing[MOST_EXPECTED];
    size_t all, at = 0, bytes, vectors = 0;
    const char *line = expected;

    if (argc != 3)
        return 2;
    all = take(argv[1], payloads);
    take(argv[2], expected);
    while (at < all && *line != '\0') {
        size_t length = 256 * (size_t)payloads[at] + payloads[at + 1];

        line = next_listing(line, listing, &bytes);
        list_vector(payloads + at + 2, length, listing, bytes);
        at += 2 + length;
        vectors++;
    }
    check(at == all && *line == '\0' && vectors > 0, "as many payloads as expected texts");
    return finish("test_text");
}
