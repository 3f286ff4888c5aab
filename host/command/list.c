/* skriemelt list: each file is one payload. */
#include "command.h"

static void print_listing(const uint8_t *payload, size_t payload_bytes)
{
    static uint8_t text[SKRIEMELT_MOST_TEXT_BYTES];
    skriemelt_text_answer a = skriemelt_list_text(payload, payload_bytes, text, sizeof text);

    if (a.refusal == SKRIEMELT_ACCEPTED)
        print_bytes(text, a.length);
    else /* no payload has a listing that is longer */
        complain("the listing", skriemelt_refusal_text(a.refusal), 0);
}

static int print_payload(const request *asked, uint32_t frame, const uint8_t *payload, size_t payload_bytes)
{
    static uint8_t records[SKRIEMELT_MOST_RECORD_BYTES], trim[SKRIEMELT_MOST_TRIM_BYTES];
    reading r;

    r.answer = skriemelt_read(payload, payload_bytes, frame, records, sizeof records, trim, sizeof trim);
    r.frame = frame;
    r.records = records;
    r.trim = trim;
    if (asked->people)
        print_people(&r, asked->rate);
    else
        print_listing(payload, payload_bytes);
    if (asked->trim && asked->people)
        print_trim_people(&r);
    else if (asked->trim)
        print_trim(&r);
    return r.answer.refusal == SKRIEMELT_ACCEPTED ? STATUS_ACCEPTED : STATUS_REFUSED;
}

static int list_file(const request *asked, uint64_t frame, const char *name)
{
    static uint8_t payload[LOOKED_AT];
    size_t payload_bytes;

    if (frame > MOST_FRAME)
        return complain(input_title(name), "there is no frame number left for it", 0);
    if (!input_payload_file(name, payload, &payload_bytes))
        return STATUS_FAILED;
    if (asked->name_count > 1)
        print_name("file", name);
    return print_payload(asked, (uint32_t)frame, payload, payload_bytes);
}

int run_list(const request *asked)
{
    int i, status = STATUS_ACCEPTED;

    if (asked->name_count == 0)
        return list_file(asked, asked->first, "-");
    for (i = 0; i < asked->name_count && !print_failed(); i++) {
        int of_file = list_file(asked, asked->first + (uint64_t)i, asked->names[i]);

        if (of_file > status)
            status = of_file;
    }
    return status;
}
