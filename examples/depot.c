/* A stock line on the air: encoded, damaged and decoded. Build it with libolivia.a (bin/library). */
#include <olivia.h>
#include <stdio.h>
#include <string.h>

enum { MODE = 5, LEAST_LEAD = 16, BLOCKS = 8, MISSING = 65535 };

static int refused(const char *what, olivia_answer answer)
{
    if (answer.number == 0)
        return 0;
    fprintf(stderr, "%s: refusal %u at place %u", what, (unsigned)answer.number, (unsigned)answer.place);
    if (answer.number == 10)
        fprintf(stderr, ", lead %u", (unsigned)answer.lead);
    fputc('\n', stderr);
    return 1;
}

int main(void)
{
    const char *line = "PART 40713 QTY 2";
    uint8_t codes[BLOCKS * MODE], text[BLOCKS * MODE];
    uint16_t tones[BLOCKS * 64];
    size_t n = strlen(line), t;

    memcpy(codes, line, n);
    olivia_answer sent = olivia_encode_message(MODE, codes, n, tones, BLOCKS * 64);
    if (refused("encode", sent))
        return 1;

    /* 4 tones of each block replaced and 4 missing: 64 - 2 * 4 - 4 * 4 is no less than the set lead */
    for (t = 0; t < sent.count; t += 16)
        tones[t] ^= 1;
    for (t = 8; t < sent.count; t += 16)
        tones[t] = MISSING;

    olivia_answer heard = olivia_decode_message(MODE, LEAST_LEAD, tones, sent.count, text, sizeof text);
    if (refused("decode", heard))
        return 1;
    printf("%u tones sent, %u codes heard: %.*s\n", (unsigned)sent.count, (unsigned)heard.count, (int)heard.count,
           (const char *)text);
    return 0;
}
