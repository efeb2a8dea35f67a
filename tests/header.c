/* Every function of include/olivia.h called from C, as C11 and as C++: what the header declares is what the library has. The calls
 * are of document 01's bench sheet, or close to it; the tests in Rust have the rest. */
#include <olivia.h>

#include <assert.h>
#include <math.h>
#include <stdio.h>
#include <string.h>

enum { TONES = 64, LONGEST_RUN = 4096, MISSING = 65535 };

static_assert(sizeof(olivia_answer) == 16, "four numbers of 32 bits");
static_assert(offsetof(olivia_character, code) == 0 && offsetof(olivia_character, lead) == 4 &&
                  offsetof(olivia_character, word) == 8 && offsetof(olivia_character, correlation) == 12 &&
                  offsetof(olivia_character, next) == 16 && offsetof(olivia_character, next_correlation) == 20 &&
                  sizeof(olivia_character) == 24,
              "six numbers of 32 bits");
static_assert(offsetof(olivia_block, characters) == 16 && sizeof(olivia_block) == 208, "an answer and eight records");
static_assert(offsetof(olivia_found, start) == 16 && offsetof(olivia_found, characters) == 20 && sizeof(olivia_found) == 212,
              "an answer, a number and eight records");
static_assert(offsetof(olivia_looked, place) == 8 && offsetof(olivia_looked, looked) == 16 && sizeof(olivia_looked) == 24,
              "a number of 32 bits and two of 64");
static_assert(offsetof(olivia_hertz, hertz) == 8 && sizeof(olivia_hertz) == 16, "two numbers and a double");
static_assert(offsetof(olivia_located, number) == 0 && offsetof(olivia_located, place) == 4 &&
                  offsetof(olivia_located, tone) == 8 && offsetof(olivia_located, hertz_off) == 16 &&
                  sizeof(olivia_located) == 24,
              "three numbers and a double");
static_assert(offsetof(olivia_trial, replaced) == 48 && sizeof(olivia_trial) == 56, "three answers and two numbers");
static_assert(offsetof(olivia_weighted_trial, damage) == 48 && sizeof(olivia_weighted_trial) == 52,
              "three answers and a number");
static_assert(offsetof(olivia_energies, number) == 0 && offsetof(olivia_energies, place) == 4 &&
                  offsetof(olivia_energies, total) == 8 && offsetof(olivia_energies, sums) == 12 &&
                  sizeof(olivia_energies) == 44,
              "eleven numbers of 32 bits");
static_assert(sizeof(olivia_sender) == 150 * 10 + 30 + 2, "150 places of ten bytes, 30 counts, one more, and the turn");
static_assert(offsetof(olivia_sent, depot) == 16 && offsetof(olivia_sent, mode) == 20 && sizeof(olivia_sent) == 24,
              "an answer and two numbers");
static_assert(offsetof(olivia_sentence_read, answer) == 0 && offsetof(olivia_sentence_read, number) == 16 &&
                  offsetof(olivia_sentence_read, place) == 20 && offsetof(olivia_sentence_read, lead) == 24 &&
                  sizeof(olivia_sentence_read) == 28,
              "an answer and three numbers");

static int cases, failures;

static void check(const char *what, int holds)
{
    cases++;
    if (!holds) {
        failures++;
        fprintf(stderr, "tests/header.c: %s\n", what);
    }
}

static int is(olivia_answer answer, uint32_t number, uint32_t place, uint32_t lead, uint32_t count)
{
    return answer.number == number && answer.place == place && answer.lead == lead && answer.count == count;
}

/* The first record is this one, and the other seven are empty. */
static int tells(olivia_block heard, olivia_character record)
{
    olivia_character all[8];

    memset(all, 0, sizeof all);
    all[0] = record;
    return memcmp(heard.characters, all, sizeof all) == 0;
}

static void blocks(void)
{
    static const olivia_character none = {0, 0, 0, 0, 0, 0}, clean = {0, 64, 0, 64, 1, 0};
    static const olivia_character damaged = {0, 4, 0, 34, 1, 30}, negative = {64, 4, 0, -34, 1, -30};
    static const uint16_t first[8] = {0, 0, 1, 1, 0, 1, 1, 1};
    const uint8_t code = 0;
    uint16_t tones[TONES + 1];
    uint8_t codes[2] = {99, 99};

    tones[TONES] = 99;
    check("case 1 encoded", is(olivia_encode_block(1, &code, 1, tones, TONES + 1), 0, 0, 0, TONES));
    check("case 1's tones", memcmp(tones, first, sizeof first) == 0 && tones[TONES] == 99);
    check("mode 9", is(olivia_encode_block(9, &code, 1, tones, TONES), 1, 0, 0, 0));

    olivia_block heard = olivia_decode_block(1, 64, tones, TONES, codes, 2);
    check("case 6 decoded", is(heard.answer, 0, 0, 0, 1) && tells(heard, clean));
    check("case 6's code", codes[0] == 0 && codes[1] == 99);
    for (int t = 0; t < 30; t += 2)
        tones[t] ^= 1;
    heard = olivia_decode_block(1, 5, tones, TONES, codes, 1);
    check("case 7 refused", is(heard.answer, 10, 0, 4, 0) && tells(heard, damaged));
    heard = olivia_decode_block(1, 4, tones, TONES, codes, 1);
    check("case 7 accepted", is(heard.answer, 0, 0, 0, 1) && tells(heard, damaged) && codes[0] == 0);
    for (int t = 0; t < TONES; t++)
        tones[t] ^= 1;
    heard = olivia_decode_block(1, 4, tones, TONES, codes, 1);
    check("case 7 with every tone turned", is(heard.answer, 0, 0, 0, 1) && tells(heard, negative) && codes[0] == 64);
    tones[40] = 2;
    heard = olivia_decode_block(1, 4, tones, TONES, codes, 1);
    check("tone 2 at mode 1", is(heard.answer, 8, 40, 0, 0) && tells(heard, none));
}

static void messages(void)
{
    const uint8_t text[5] = {'4', '0', '7', '1', '3'}, with_zero[3] = {'4', 0, '7'};
    uint16_t tones[2 * TONES];
    uint8_t heard[6];

    check("a message encoded", is(olivia_encode_message(3, text, 5, tones, 2 * TONES), 0, 0, 0, 2 * TONES));
    check("a message decoded", is(olivia_decode_message(3, 64, tones, 2 * TONES, heard, 6), 0, 0, 0, 5));
    check("its text", memcmp(heard, text, 5) == 0);
    check("code 0 in a message", is(olivia_encode_message(3, with_zero, 3, tones, 2 * TONES), 6, 1, 0, 0));
    check("an output too short", is(olivia_decode_message(3, 64, tones, 2 * TONES, heard, 5), 9, 0, 0, 0));
    check("an empty message", is(olivia_encode_message(3, NULL, 0, NULL, 0), 0, 0, 0, 0));
}

static int looked(olivia_looked answer, uint32_t number, uint64_t place, uint64_t count)
{
    return answer.number == number && answer.place == place && answer.looked == count;
}

static void range_checks(void)
{
    uint16_t tones[TONES] = {0, 255, MISSING};

    check("64 good tones", looked(olivia_check_tones(8, tones, TONES), 0, 0, TONES));
    tones[40] = 256;
    tones[50] = 65534;
    check("tone 256 at mode 8", looked(olivia_check_tones(8, tones, TONES), 8, 40, 41));
    check("the tones before it", looked(olivia_check_tones(8, tones, 40), 0, 0, 40));
    check("a check at mode 9", looked(olivia_check_tones(9, tones, TONES), 1, 0, 0));
    check("a check of 0 tones", looked(olivia_check_tones(8, tones + 40, 0), 0, 0, 0));
}

/* What is told of the block found, without its start. */
static olivia_block block_of(olivia_found found)
{
    olivia_block block;

    block.answer = found.answer;
    memcpy(block.characters, found.characters, sizeof block.characters);
    return block;
}

static int found(olivia_found given, uint32_t start, uint8_t code)
{
    const olivia_character clean = {code, 64, code, 64, code == 0, 0};

    return is(given.answer, 0, 0, 0, 1) && given.start == start && tells(block_of(given), clean);
}

static int not_found(olivia_found given, uint32_t number, uint32_t place)
{
    static const olivia_character none = {0, 0, 0, 0, 0, 0};

    return is(given.answer, number, place, 0, 0) && given.start == 0 && tells(block_of(given), none);
}

/* Two blocks of mode 1 among missing tones: code 0 at 40, and code 1 at the last start. */
static void searches(void)
{
    static uint16_t run[LONGEST_RUN + 1];
    const uint8_t sent[2] = {0, 1};
    const size_t last = LONGEST_RUN - TONES;
    uint8_t codes[2] = {99, 99};

    for (size_t place = 0; place <= LONGEST_RUN; place++)
        run[place] = MISSING;
    check("marks only", not_found(olivia_find_block(1, 1, run, LONGEST_RUN, codes, 2), 13, 0));
    olivia_encode_block(1, &sent[0], 1, run + 40, TONES);
    olivia_encode_block(1, &sent[1], 1, run + last, TONES);
    check("the second block", found(olivia_find_block(1, 64, run + 41, LONGEST_RUN - 41, codes, 2), last - 41, 1));
    check("its code", codes[0] == 1 && codes[1] == 99);
    check("the first block", found(olivia_find_block(1, 64, run, LONGEST_RUN, codes, 1), 40, 0));
    check("the first code", codes[0] == 0 && codes[1] == 99);
    check("the block alone", found(olivia_find_block(1, 64, run + 40, TONES, codes, 1), 0, 0));
    check("63 tones", not_found(olivia_find_block(1, 64, run + 40, TONES - 1, codes, 1), 7, 0));
    check("4,097 tones", not_found(olivia_find_block(1, 64, run, LONGEST_RUN + 1, codes, 1), 7, 0));
    check("a search with no output", not_found(olivia_find_block(1, 64, run, LONGEST_RUN, NULL, 0), 9, 0));
    run[last] = 2;
    check("tone 2 behind a block", not_found(olivia_find_block(1, 64, run, LONGEST_RUN, codes, 1), 8, last));
    check("a search at lead 65", not_found(olivia_find_block(1, 65, run, LONGEST_RUN, codes, 1), 2, 0));
    check("a search at mode 9", not_found(olivia_find_block(9, 64, run, LONGEST_RUN, codes, 1), 1, 0));
    check("no code of a refusal", codes[0] == 0 && codes[1] == 99);
}

static void frequencies(void)
{
    olivia_hertz low = olivia_frequency(5, 1000, 1500, 0), high = olivia_frequency(5, 1000, 1500, 31);
    check("case 12, tone 0", low.number == 0 && low.place == 0 && low.hertz == 1015.625);
    check("case 12, tone 31", high.number == 0 && high.place == 0 && high.hertz == 1984.375);
    olivia_hertz refused = olivia_frequency(5, 999, 1500, 0);
    check("a width of 999", refused.number == 3 && refused.place == 0 && refused.hertz == 0);
}

static int is_at(olivia_located at, uint32_t tone, double hertz_off)
{
    return at.number == 0 && at.place == 0 && at.tone == tone && at.hertz_off == hertz_off;
}

static int is_nowhere(olivia_located at, uint32_t number)
{
    return at.number == number && at.place == 0 && at.tone == 0 && at.hertz_off == 0 && !signbit(at.hertz_off);
}

/* The band of case 12: from 1000 up to 2000 Hz, with a spacing of 31.25 Hz. */
static void measurements(void)
{
    check("case 12 heard at tone 31", is_at(olivia_locate(5, 1000, 1500, 1984.375), 31, 0));
    check("3 Hz below tone 31", is_at(olivia_locate(5, 1000, 1500, 1981.375), 31, -3));
    check("the lower edge", is_at(olivia_locate(5, 1000, 1500, 1000), 0, -15.625));
    check("under the lower edge", is_nowhere(olivia_locate(5, 1000, 1500, 999.9999999999999), 16));
    check("the edge of tone 1", is_at(olivia_locate(5, 1000, 1500, 1031.25), 1, -15.625));
    check("the upper edge", is_nowhere(olivia_locate(5, 1000, 1500, 2000), 16));
    check("-0.0 in a band from 0", is_at(olivia_locate(5, 1000, 500, -0.0), 0, -15.625));
    check("an infinity", is_nowhere(olivia_locate(5, 1000, 1500, INFINITY), 15));
    check("not a number", is_nowhere(olivia_locate(5, 1000, 1500, NAN), 15));
    check("a centre of 10,001 and not a number", is_nowhere(olivia_locate(5, 1000, 10001, NAN), 4));
    check("a width of 999 and a centre of 10,001", is_nowhere(olivia_locate(5, 999, 10001, NAN), 3));
    check("mode 9 and a width of 999", is_nowhere(olivia_locate(9, 999, 10001, NAN), 1));
}

static void trials(void)
{
    const uint8_t text[2] = {64, 127};
    uint16_t heard[TONES], tones[TONES];
    uint8_t one[2], two[2];

    olivia_encode_block(2, text, 2, heard, TONES);
    heard[3] = MISSING;
    heard[5] ^= 1;
    heard[7] ^= 2;
    olivia_trial trial = olivia_trial_run(2, 16, text, 2, heard, TONES, tones, TONES, one, 2, two, 2);
    check("a trial's answers",
          is(trial.encoded, 0, 0, 0, TONES) && is(trial.first, 0, 0, 0, 2) && is(trial.second, 0, 0, 0, 2));
    check("a trial's damage", trial.replaced == 2 && trial.missing == 1);
    check("a trial's texts", memcmp(one, text, 2) == 0 && memcmp(two, text, 2) == 0);
}

/* Case 7 again, with the 15 tones that are turned at one weight, and the others at weight 15. */
static void weights(void)
{
    static const olivia_character none = {0, 0, 0, 0, 0, 0}, nothing = {0, 0, 0, 0, 1, 0};
    static const olivia_character full = {0, 60, 0, 510, 1, 450}, low = {0, 510, 0, 735, 1, 225};
    const uint8_t code = 0;
    uint16_t tones[TONES];
    uint8_t weights[TONES], codes[2] = {99, 99};

    olivia_encode_block(1, &code, 1, tones, TONES);
    for (int t = 0; t < 30; t += 2)
        tones[t] ^= 1;
    memset(weights, 15, sizeof weights);
    olivia_block heard = olivia_decode_weighted(1, 61, tones, TONES, weights, TONES, codes, 2);
    check("case 7 at weight 15 refused", is(heard.answer, 10, 0, 60, 0) && tells(heard, full) && codes[0] == 99);
    heard = olivia_decode_weighted(1, 60, tones, TONES, weights, TONES, codes, 2);
    check("case 7 at weight 15 accepted", is(heard.answer, 0, 0, 0, 1) && tells(heard, full));
    check("its code", codes[0] == 0 && codes[1] == 99);
    for (int t = 0; t < 30; t += 2)
        weights[t] = 0;
    heard = olivia_decode_weighted(1, 510, tones, TONES, weights, TONES, codes, 1);
    check("case 7 at weight 0 accepted", is(heard.answer, 0, 0, 0, 1) && tells(heard, low));
    heard = olivia_decode_weighted(1, 511, tones, TONES, weights, TONES, codes, 1);
    check("case 7 at weight 0 refused", is(heard.answer, 10, 0, 510, 0) && tells(heard, low));

    weights[63] = 16;
    heard = olivia_decode_weighted(1, 60, tones, TONES, weights, TONES, codes, 1);
    check("weight 16", is(heard.answer, 14, 63, 0, 0) && tells(heard, none));
    tones[63] = MISSING;
    heard = olivia_decode_weighted(1, 60, tones, TONES, weights, TONES, codes, 1);
    check("weight 16 of a missing tone", is(heard.answer, 14, 63, 0, 0) && tells(heard, none));
    heard = olivia_decode_weighted(1, 60, tones, TONES, weights, TONES - 1, codes, 1);
    check("63 weights", is(heard.answer, 7, 0, 0, 0) && tells(heard, none));
    heard = olivia_decode_weighted(1, 60, tones, TONES, NULL, 0, codes, 1);
    check("no weights", is(heard.answer, 7, 0, 0, 0) && tells(heard, none));
    heard = olivia_decode_weighted(1, 961, tones, TONES, weights, TONES, codes, 1);
    check("lead 961", is(heard.answer, 2, 0, 0, 0) && tells(heard, none));
    memset(weights, 0, sizeof weights);
    heard = olivia_decode_weighted(1, 1, tones, TONES, weights, TONES, codes, 1);
    check("every weight 0", is(heard.answer, 10, 0, 0, 0) && tells(heard, nothing));
}

/* D is 15 for the missing tone, 18 and 30 for the replaced ones, 5 for a right one of weight 10, and 0 for the others. */
static void weighted_trials(void)
{
    const uint8_t text[2] = {64, 127};
    uint16_t heard[TONES], tones[TONES];
    uint8_t weights[TONES + 1], first[2], second[2];

    olivia_encode_block(2, text, 2, heard, TONES);
    memset(weights, 15, sizeof weights);
    heard[3] = MISSING;
    weights[3] = 7;
    heard[5] ^= 1;
    weights[5] = 3;
    heard[7] ^= 2;
    weights[9] = 10;
    olivia_weighted_trial trial = olivia_weighted_trial_run(2, 960 - 2 * 68, text, 2, heard, TONES, weights, TONES,
                                                            tones, TONES, first, 2, second, 2);
    check("a weighted trial's answers",
          is(trial.encoded, 0, 0, 0, TONES) && is(trial.first, 0, 0, 0, 2) && is(trial.second, 0, 0, 0, 2));
    check("a weighted trial's damage", trial.damage == 68);
    check("a weighted trial's texts", memcmp(first, text, 2) == 0 && memcmp(second, text, 2) == 0);
    trial = olivia_weighted_trial_run(2, 960, text, 2, heard, TONES, weights, TONES + 1, tones, TONES, first, 2, second,
                                      2);
    check("a weighted trial with 65 weights", is(trial.first, 0, 0, 0, 2) && is(trial.second, 7, 0, 0, 0));
    check("its damage", trial.damage == 68);
}

/* What is told of a block of mode b that is accepted, every character of which has this energy. */
static int adds_up(olivia_energies given, uint32_t b, uint32_t total)
{
    olivia_energies all;

    memset(&all, 0, sizeof all);
    all.total = total;
    for (uint32_t q = 0; q < b; q++)
        all.sums[q] = total;
    return memcmp(&given, &all, sizeof all) == 0;
}

static int adds_nothing(olivia_energies given, uint32_t number, uint32_t place)
{
    olivia_energies all;

    memset(&all, 0, sizeof all);
    all.number = number;
    all.place = place;
    return memcmp(&given, &all, sizeof all) == 0;
}

/* A block of mode 3, with two tones replaced and one missing. The squared weights are 225 for 61 tones, 16 and 1. */
static void energies(void)
{
    const uint8_t text[3] = {64, 127, 0};
    uint16_t tones[TONES];
    uint8_t weights[TONES];

    olivia_encode_block(3, text, 3, tones, TONES);
    memset(weights, 15, sizeof weights);
    check("the energy of a clean block", adds_up(olivia_energy(3, tones, TONES), 3, 4096));
    tones[3] = MISSING;
    tones[5] ^= 1;
    tones[63] ^= 6;
    weights[5] = 4;
    weights[63] = 1;
    check("the energy of a damaged block", adds_up(olivia_energy(3, tones, TONES), 3, 64 * 63));
    check("its energy with weights",
          adds_up(olivia_weighted_energy(3, tones, TONES, weights, TONES), 3, 64 * (61 * 225 + 16 + 1)));
    check("the energy of 63 tones", adds_nothing(olivia_energy(3, tones, TONES - 1), 7, 0));
    check("the energy of no tones", adds_nothing(olivia_energy(3, NULL, 0), 7, 0));
    check("energy without weights", adds_nothing(olivia_weighted_energy(3, tones, TONES, NULL, 0), 7, 0));
    check("energy at mode 9", adds_nothing(olivia_energy(9, tones, TONES), 1, 0));
    check("energy at mode 9 with weights", adds_nothing(olivia_weighted_energy(9, tones, TONES, weights, TONES), 1, 0));
    weights[3] = 16;
    check("energy with weight 16 of a missing tone",
          adds_nothing(olivia_weighted_energy(3, tones, TONES, weights, TONES), 14, 3));
    tones[40] = 8;
    check("energy with tone 8 at mode 3", adds_nothing(olivia_energy(3, tones, TONES), 8, 40));
    check("the same with weights", adds_nothing(olivia_weighted_energy(3, tones, TONES, weights, TONES), 8, 40));
}

static int takes(olivia_sender *sender, uint32_t depot, uint32_t mode, const uint8_t *codes)
{
    return is(olivia_hand_in(sender, depot, mode, codes, mode), 0, 0, 0, 0);
}

/* The block is refused so, and the state stays as it was. */
static int refuses(olivia_sender *sender, uint32_t depot, uint32_t mode, const uint8_t *codes, size_t n, uint32_t number,
                   uint32_t place)
{
    const olivia_sender before = *sender;
    const olivia_answer answer = olivia_hand_in(sender, depot, mode, codes, n);

    return is(answer, number, place, 0, 0) && memcmp(sender, &before, sizeof before) == 0;
}

static int sends(olivia_sender *sender, uint16_t *tones, uint32_t depot, uint32_t mode)
{
    const olivia_sent sent = olivia_send(sender, tones, TONES);

    return is(sent.answer, 0, 0, 0, TONES) && sent.depot == depot && sent.mode == mode;
}

/* Nothing is sent, refused so or with none waiting, and the state stays as it was. */
static int sends_nothing(olivia_sender *sender, uint16_t *tones, size_t room, uint32_t number)
{
    const olivia_sender before = *sender;
    const olivia_sent sent = olivia_send(sender, tones, room);

    return is(sent.answer, number, 0, 0, 0) && sent.depot == 0 && sent.mode == 0 &&
           memcmp(sender, &before, sizeof before) == 0;
}

/* Depot 29 hands in two blocks, and depot 0 one, which is served first. */
static void senders(void)
{
    const uint8_t text[8] = {'4', '0', '7', '1', '3', 0, 64, 127}, wrong[2] = {0, 128};
    olivia_sender sender = olivia_sender_new();
    uint16_t tones[TONES], wanted[TONES];
    int taken = 0;

    check("none waiting", sends_nothing(&sender, NULL, 0, 9) && sends_nothing(&sender, tones, TONES, 0));
    check("two blocks of depot 29", takes(&sender, 29, 8, text) && takes(&sender, 29, 1, text));
    check("a block of depot 0", takes(&sender, 0, 5, text));
    check("three places filled", sender.bytes[1530] == 3 && sender.bytes[1500] == 1 && sender.bytes[1500 + 29] == 2);
    check("a block of depot 30", refuses(&sender, 30, 5, text, 5, 17, 0));
    check("code 128 handed in", refuses(&sender, 30, 2, wrong, 2, 6, 1));
    check("no codes handed in", refuses(&sender, 0, 5, NULL, 0, 5, 0));
    check("a block of mode 9", refuses(&sender, 0, 9, text, 8, 1, 0));
    check("an output of 63 tones", sends_nothing(&sender, tones, TONES - 1, 9));
    check("depot 0 served", sends(&sender, tones, 0, 5));
    olivia_encode_block(5, text, 5, wanted, TONES);
    check("its tones", memcmp(tones, wanted, sizeof wanted) == 0);
    check("depot 29 served", sends(&sender, tones, 29, 8));
    olivia_encode_block(8, text, 8, wanted, TONES);
    check("the tones of its first block", memcmp(tones, wanted, sizeof wanted) == 0);
    check("depot 29 served again", sends(&sender, tones, 29, 1) && sends_nothing(&sender, tones, TONES, 0));

    for (uint32_t block = 0; block < 7 * 8 + 6; block++)
        taken += takes(&sender, block / 8, 1, text);
    check("8 blocks of each of depots 0 to 6, and 6 of depot 7", taken == 7 * 8 + 6);
    check("a ninth block", refuses(&sender, 6, 1, text, 1, 18, 6));
    check("a seventh block where the sum is 150", refuses(&sender, 7, 6, text, 6, 19, 7));
    check("a first block there", takes(&sender, 8, 2, text));
}

/* The refusal is written as this sentence where there is just room for it, and where there is more, and the bytes behind it are
 * kept; with one byte less it is refused with 9, and nothing is written. */
static int writes(uint32_t number, uint32_t place, uint32_t lead, const char *sentence)
{
    const size_t length = strlen(sentence);
    uint8_t out[128], before[128];

    memset(out, 200, sizeof out);
    memcpy(before, out, sizeof out);
    if (!is(olivia_write_sentence(number, place, lead, out, length - 1), 9, 0, 0, 0) || memcmp(out, before, sizeof out) != 0)
        return 0;
    memcpy(before, sentence, length);
    return is(olivia_write_sentence(number, place, lead, out, length), 0, 0, 0, (uint32_t)length) &&
           is(olivia_write_sentence(number, place, lead, out, sizeof out), 0, 0, 0, (uint32_t)length) &&
           memcmp(out, before, sizeof out) == 0;
}

/* The refusal has no sentence: 20, with room for one and without, and nothing is written. */
static int has_no_sentence(uint32_t number, uint32_t place, uint32_t lead)
{
    uint8_t out[128], before[128];

    memset(out, 200, sizeof out);
    memcpy(before, out, sizeof out);
    return is(olivia_write_sentence(number, place, lead, out, sizeof out), 20, 0, 0, 0) &&
           is(olivia_write_sentence(number, place, lead, NULL, 0), 20, 0, 0, 0) && memcmp(out, before, sizeof out) == 0;
}

static int says(const char *sentence, uint32_t number, uint32_t place, uint32_t lead)
{
    const olivia_sentence_read read = olivia_read_sentence((const uint8_t *)sentence, strlen(sentence));

    return is(read.answer, 0, 0, 0, 0) && read.number == number && read.place == place && read.lead == lead;
}

/* The n bytes say nothing: so many of them are a beginning of a sentence. */
static int says_nothing(const char *bytes, size_t n, uint32_t shared)
{
    const olivia_sentence_read read = olivia_read_sentence((const uint8_t *)bytes, n);

    return is(read.answer, 20, shared, 0, 0) && read.number == 0 && read.place == 0 && read.lead == 0;
}

static void sentences(void)
{
    static const char mode[] = "Refusal 1: the mode is not from 1 to 8 (place 0).";
    static const char unclear[] = "Refusal 10: the character at place 1023 is unclear: its lead is 960.";
    static const char depot[] = "Refusal 18: depot 65535 has 8 blocks waiting.", zero[] = "Refusal 18: depot 065";
    const size_t length = sizeof depot - 1;

    check("refusal 1 written", writes(1, 0, 0, mode));
    check("refusal 10 written", writes(10, 1023, 960, unclear));
    check("refusal 18 written", writes(18, 65535, 0, depot));
    check("refusal 1 into no output", is(olivia_write_sentence(1, 0, 0, NULL, 0), 9, 0, 0, 0));
    check("number 0 to be written", has_no_sentence(0, 0, 0));
    check("number 274 to be written", has_no_sentence(256 + 18, 0, 0));
    check("number 4294967295 to be written", has_no_sentence(4294967295, 0, 0));
    check("place 65536 to be written", has_no_sentence(18, 65536, 0));
    check("lead 961 to be written", has_no_sentence(10, 0, 961));
    check("a lead of refusal 8 to be written", has_no_sentence(8, 0, 1));
    check("refusal 1 read", says(mode, 1, 0, 0));
    check("refusal 10 read", says(unclear, 10, 1023, 960));
    check("refusal 18 read", says(depot, 18, 65535, 0));
    check("no bytes read", says_nothing(NULL, 0, 0));
    check("a sentence without its last byte", says_nothing(depot, length - 1, (uint32_t)length - 1));
    check("a sentence with the zero behind it", says_nothing(depot, length + 1, (uint32_t)length));
    check("a place with a zero in front", says_nothing(zero, sizeof zero - 1, (uint32_t)sizeof zero - 3));
    check("a place of 65536", says_nothing("Refusal 18: depot 65536 has", 27, 22));
    check("a lead of 961", says_nothing("Refusal 10: the character at place 3 is unclear: its lead is 961.", 65, 63));
    check("a log's other line", says_nothing("depot 18", 8, 0));
}

int main(void)
{
    blocks();
    messages();
    range_checks();
    searches();
    frequencies();
    measurements();
    trials();
    weights();
    weighted_trials();
    energies();
    senders();
    sentences();
    printf("header: %d cases\n", cases);
    return failures != 0;
}
