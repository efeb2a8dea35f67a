/* A block heard with damage: why each of its characters was chosen. Build it with libolivia.a (bin/library). */
#include <olivia.h>
#include <stdio.h>

enum { MODE = 5, LEAST_LEAD = 16, TONES = 64, MISSING = 65535 };

int main(void)
{
    const uint8_t sent[MODE] = {'4', '0', '7', '1', '3'};
    uint8_t codes[MODE];
    uint16_t tones[TONES];
    int t, q;

    if (olivia_encode_block(MODE, sent, MODE, tones, TONES).number != 0)
        return 1;

    /* 8 tones replaced and 4 missing: 64 - 2 * 4 - 4 * 8 is no less than the set lead */
    for (t = 0; t < TONES; t += 8)
        tones[t] ^= 3;
    for (t = 1; t < TONES; t += 16)
        tones[t] = MISSING;

    /* The records are there if the block is accepted, and if it is refused as unclear. */
    olivia_block heard = olivia_decode_block(MODE, LEAST_LEAD, tones, TONES, codes, MODE);
    if (heard.answer.number != 0 && heard.answer.number != 10)
        return 1;
    for (q = 0; q < MODE; q++) {
        olivia_character c = heard.characters[q];
        printf("code %u, lead %u: word %u with %d, then word %u with %d\n", (unsigned)c.code, (unsigned)c.lead,
               (unsigned)c.word, (int)c.correlation, (unsigned)c.next, (int)c.next_correlation);
    }
    return 0;
}
