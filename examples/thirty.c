/* Thirty depots, one transmitter: each hands in the blocks of its stock line until one is refused; then the sender goes round, and what
 * it sends is decoded. Build it with libolivia.a (bin/library). */
#include <olivia.h>
#include <stdio.h>

enum { DEPOTS = 30, LINE = 16, MOST_WAITING = 8, LONGEST_BLOCK = 8, LEAST_LEAD = 16, TONES = 64 };

/* A depot's mode, how many of its blocks were taken, the refusal that came then, and what was heard of it. */
typedef struct {
    uint32_t mode, taken, refusal, heard;
    uint8_t text[MOST_WAITING * LONGEST_BLOCK];
} depot_log;

/* Hands in the depot's line, over and over, until a block is refused. */
static void hand_in(olivia_sender *sender, uint32_t depot, depot_log *log)
{
    char line[2 * LINE];

    snprintf(line, sizeof line, "PART 407%02u x 12 ", (unsigned)depot);
    for (;;) {
        const uint8_t *codes = (const uint8_t *)line + log->taken * log->mode % LINE;

        log->refusal = olivia_hand_in(sender, depot, log->mode, codes, log->mode).number;
        if (log->refusal != 0)
            return;
        log->taken++;
    }
}

/* Decodes a block that was sent, in the mode it was sent in. */
static void hear(depot_log *log, uint32_t mode, const uint16_t *tones)
{
    olivia_block block = olivia_decode_block(mode, LEAST_LEAD, tones, TONES, log->text + log->heard,
                                             sizeof log->text - log->heard);

    log->heard += block.answer.count;
}

/* Sends until none waits, and prints the depots in the order served, a line for each round. The output of one call is too short: that
 * call takes no block out, and the next one serves the depot whose turn it is. */
static void send_all(olivia_sender *sender, depot_log *logs)
{
    uint16_t tones[TONES];
    uint32_t last = DEPOTS;

    for (int call = 0;; call++) {
        olivia_sent sent = olivia_send(sender, tones, TONES - (call == 75));

        if (sent.answer.number != 0) {
            printf(" (refusal %u)", (unsigned)sent.answer.number);
            continue;
        }
        if (sent.answer.count == 0)
            break;
        printf("%s%u", sent.depot <= last ? "\nround: " : " ", (unsigned)sent.depot);
        last = sent.depot;
        hear(&logs[sent.depot], sent.mode, tones);
    }
    printf("\n\n");
}

int main(void)
{
    static depot_log logs[DEPOTS];
    olivia_sender sender = olivia_sender_new();
    uint32_t depot, taken = 0;

    for (depot = 0; depot < DEPOTS; depot++) {
        logs[depot].mode = depot % 2 == 0 ? 4 : 8;
        hand_in(&sender, depot, &logs[depot]);
        taken += logs[depot].taken;
    }
    printf("%u blocks wait\n", (unsigned)taken);
    send_all(&sender, logs);
    for (depot = 0; depot < DEPOTS; depot++) {
        const depot_log *log = &logs[depot];

        printf("depot %2u, mode %u, %u taken, then refusal %u: \"%.*s\"\n", (unsigned)depot, (unsigned)log->mode,
               (unsigned)log->taken, (unsigned)log->refusal, (int)log->heard, (const char *)log->text);
    }
    return 0;
}
