/* Refusals in a log: a damaged block is refused, the refusal is logged as a sentence, and what the log says is read
 * back. Build it with libolivia.a (bin/library). */
#include <olivia.h>
#include <stdio.h>

enum { MODE = 5, LEAST_LEAD = 16, TONES = 64, LINE = 128 };

/* Prints a line of the log and the refusal that it says, or how many of its bytes agree with a sentence. */
static void read_line(const uint8_t *line, size_t length)
{
    olivia_sentence_read read = olivia_read_sentence(line, length);

    printf("%.*s\n", (int)length, (const char *)line);
    if (read.answer.number == 0)
        printf("    number %u, place %u, lead %u\n", (unsigned)read.number, (unsigned)read.place, (unsigned)read.lead);
    else
        printf("    no sentence: %u of its %u bytes agree with one\n", (unsigned)read.answer.place, (unsigned)length);
}

/* Decodes the block, and if it is refused, writes the refusal to the line. Returns the length of what was written. */
static size_t log_block(const uint16_t *tones, uint8_t *line)
{
    uint8_t codes[MODE];
    olivia_answer heard = olivia_decode_block(MODE, LEAST_LEAD, tones, TONES, codes, MODE).answer;

    if (heard.number == 0)
        return 0;
    return olivia_write_sentence(heard.number, heard.place, heard.lead, line, LINE).count;
}

int main(void)
{
    const uint8_t sent[MODE] = {'4', '0', '7', '1', '3'};
    uint8_t line[LINE];
    uint16_t tones[TONES];
    size_t length;
    int t;

    /* Every third tone replaced, and then one that is none of the mode's. */
    olivia_encode_block(MODE, sent, MODE, tones, TONES);
    for (t = 0; t < TONES; t += 3)
        tones[t] ^= 9;
    length = log_block(tones, line);
    read_line(line, length);
    tones[17] = 32;
    length = log_block(tones, line);
    read_line(line, length);

    /* A line of which the end is lost, and one with a byte more. */
    read_line(line, length - 6);
    line[length] = '.';
    read_line(line, length + 1);
    return 0;
}
