/* The Olivia text link for C and C++: from characters to tones and back. Link libolivia.a.
 *
 * A mode b is 1 to 8: a symbol has b bits, a block b characters, and a tone is below 2^b. A block is 64 tones.
 * Tone 65535 marks a missing one, and may stand only in tones to be decoded or checked. A code is one byte, 0 to
 * 127. A message is 0 to 1,024 codes from 1 to 127. The set lead, least_lead, is 1 to 64: what a character's lead
 * has to reach to be clear. A weight says how sure a tone is, from 0 to 15; where weights are passed the set lead
 * is 1 to 960.
 *
 * What a caller owes. A pointer with a count n is to n elements that may be read, and a pointer with a room is to
 * as many elements that may be read and written. Each is aligned for its type. With 0 elements it is not followed,
 * and may be NULL. A pointer to a sender is to one, which may be read and written. Memory that is lent to be
 * written overlaps nothing else that is passed, and nothing else uses it during the call. Nothing else is asked:
 * every other argument may have any value. No function keeps a pointer, allocates memory or has a state of its own;
 * a sender's is in the caller's memory.
 *
 * What every function gives. It returns for every input, and the answer and what it leaves in the caller's
 * memory depend on what is passed alone. The checks are made in the order that its comment lists, and the first
 * that fails is the refusal. A refusal writes nothing. An accepted call writes the elements that its comment
 * names, and every other element keeps its contents.
 *
 * Refusals, with the place that is told, which is 0 unless the table says another:
 *
 *    1  the mode is not 1 to 8
 *    2  the set lead is not 1 to 64, or with weights not 1 to 960
 *    3  the width is not 125, 250, 500, 1000 or 2000
 *    4  the centre is above 10,000, or twice the centre is below the width
 *    5  a block has not exactly b codes, or a message has over 1,024
 *    6  a code of 128 or more, in a message also code 0; place of the lowest
 *    7  a block has not exactly 64 tones, or where weights are passed not exactly 64 of them, a message's tones are
 *       no multiple of 64 or over 64 * ceil(1024 / b), or a run has not 64 to 4,096 tones
 *    8  a tone that is not below 2^b, nor a missing mark where that is allowed; the lowest place (a frequency: 0)
 *    9  the output is shorter than 64 tones a block encoded, b bytes a block decoded or found, or than the sentence
 *       written
 *   10  unclear; place of the lowest unclear character, counted from the text's start, and its lead
 *   11  a 0 before the end of a message's text, place of the first; if none, and at least b codes
 *       stand from the end on, place of the end
 *   12  a message's text is over 1,024 codes; place 1,024
 *   13  at no start of a run are 64 tones accepted
 *   14  a weight above 15, of a missing tone too; the lowest place
 *   15  a measured frequency is infinite or not a number
 *   16  a measured frequency lies below the band's lower edge, or at or above its upper
 *   17  the depot is not 0 to 29
 *   18  the depot has 8 blocks waiting; place is the depot
 *   19  with the block, the larger of 4 and its waiting blocks would sum to over 150 over all depots; place is the
 *       depot
 *   20  bytes that are no sentence of the list of refusals, place is the length of the longest beginning that they
 *       share with any sentence of it; or, to be written, a number that the list does not have, a place above
 *       65,535, a lead above 960, or a lead other than 0 for a refusal that has none
 *
 * The list is in docs/REFUSALS.md: one sentence for each of these numbers.
 */
#ifndef OLIVIA_H
#define OLIVIA_H

#include <stddef.h>
#include <stdint.h>

#ifdef __cplusplus
extern "C" {
#endif

/* number 0: accepted, place and lead are 0, and count is the tones, codes or bytes of a sentence that were written.
 * Else the refusal's number, its place, its lead (0 unless the number is 10), and count is 0. */
typedef struct {
    uint32_t number;
    uint32_t place;
    uint32_t lead;
    uint32_t count;
} olivia_answer;

/* The record of a character: why it was chosen. word is the winning Walsh word, 0 to 63: the lowest-numbered of
 * those whose correlation has the largest magnitude. next is the runner-up: the lowest-numbered of those with the
 * largest magnitude among the other 63. correlation and next_correlation are theirs, signed, -64 to 64, or with
 * weights -960 to 960. lead is the magnitude of correlation minus that of next_correlation, and code is word,
 * plus 64 if correlation is negative. So too for an unclear character, whose code is not written. */
typedef struct {
    uint32_t code, lead, word;
    int32_t correlation;
    uint32_t next;
    int32_t next_correlation;
} olivia_character;

/* A block's answer, and the records of its b characters, also if it is refused with 10. The records past those
 * are empty, six zeros each, and all eight after another refusal. The answers of a message and of a trial carry
 * no records. */
typedef struct {
    olivia_answer answer;
    olivia_character characters[8];
} olivia_block;

/* The answer for a run of tones, the start of the block found, counted from 0, and the records of that block's b
 * characters, those past them empty. On a refusal start is 0 and all eight records are empty. */
typedef struct {
    olivia_answer answer;
    uint32_t start;
    olivia_character characters[8];
} olivia_found;

/* number 0: place is 0. Else the refusal's number and place. looked is how many tones were looked at, refused or
 * not. */
typedef struct {
    uint32_t number;
    uint64_t place;
    uint64_t looked;
} olivia_looked;

/* number 0: place is 0, and hertz is the frequency. Else the refusal's number and place, and hertz is 0. */
typedef struct {
    uint32_t number;
    uint32_t place;
    double hertz;
} olivia_hertz;

/* number 0: place is 0, tone is the tone that a measured frequency belongs to, and hertz_off how far it is off that
 * tone. Else the refusal's number and place, and tone and hertz_off are 0. */
typedef struct {
    uint32_t number, place, tone;
    double hertz_off;
} olivia_located;

/* The answers of the three calls of a trial, and the tones of heard that are replaced and missing. A count that
 * 32 bits do not hold is told as 4294967295. */
typedef struct {
    olivia_answer encoded, first, second;
    uint32_t replaced, missing;
} olivia_trial;

/* The answers of the three calls of a trial with weights, and its damage D; a D that 32 bits do not hold is told
 * as 4294967295. */
typedef struct {
    olivia_answer encoded, first, second;
    uint32_t damage;
} olivia_weighted_trial;

/* The energy of each character of a block. number 0: no check failed, place is 0, sums has for each of the b
 * characters the sum of its 64 squared correlations, and total is what each of these equals; past them sums is 0.
 * Else the refusal's number and its place, and total and sums are 0. */
typedef struct {
    uint32_t number, place, total;
    uint32_t sums[8];
} olivia_energies;

/* The state of a sender: 150 places of 10 bytes, each a waiting block's depot, its mode and up to 8 codes; then how
 * many blocks each of 30 depots has waiting, how many places are filled, and the depot that the next send looks at
 * first. The filled places come first, in the order in which the blocks were handed in. It can be copied and stored. */
typedef struct {
    uint8_t bytes[1532];
} olivia_sender;

/* The answer for a send. number 0 and count 64: a block of this depot was sent, in this mode. number 0 and count 0:
 * none waiting. depot and mode are 0 unless a block was sent. */
typedef struct {
    olivia_answer answer;
    uint32_t depot, mode;
} olivia_sent;

/* The answer for a sentence read, whose count is 0. Its number 0: number, place and lead are those of the refusal
 * that the sentence says, with lead 0 unless number is 10. Its number 20: they are 0. */
typedef struct {
    olivia_answer answer;
    uint32_t number, place, lead;
} olivia_sentence_read;

/* Encodes the n codes of a block. Checks 1, 5, 9, 6. Accepted: count is 64, and the first 64 elements of tones
 * are the block's tones. */
olivia_answer olivia_encode_block(uint32_t mode, const uint8_t *codes, size_t n, uint16_t *tones, size_t room);

/* Decodes the n tones of a block. Checks 1, 2, 7, 9, 8, 10. Accepted, if every character's lead is at least the
 * set lead: count is b, and the first b elements of codes are the block's codes. With a greater set lead, up to 64,
 * the same block has the same answer, records and codes, or it has refusal 10 and the same records. */
olivia_block olivia_decode_block(uint32_t mode, uint32_t least_lead, const uint16_t *tones, size_t n,
                                 uint8_t *codes, size_t room);

/* Decodes the n tones of a block with a weight for each, by which its symbol counts: what olivia_decode_block sums
 * as +1 or -1 is here + or - the weight, and 0 for a missing tone, whatever its weight. Checks 1, 2, 7, 9, 8, 14,
 * 10. Accepted as there. With weight 15 throughout and 15 times the set lead it answers as olivia_decode_block
 * does, but that every lead and correlation is 15 times as large, and writes the same; with weight 1 throughout
 * and the same set lead, from 1 to 64, it answers and writes exactly the same. A tone of weight 0 counts like a
 * missing one, but has to be one of the mode's all the same. What olivia_decode_block says of a greater set lead
 * holds here up to 960. */
olivia_block olivia_decode_weighted(uint32_t mode, uint32_t least_lead, const uint16_t *tones, size_t n,
                                    const uint8_t *weights, size_t weights_n, uint8_t *codes, size_t room);

/* Finds the first block in a run of n tones, 64 to 4,096, whose start is unknown: the first start at which
 * olivia_decode_block accepts the 64 tones from there on, at the same mode and set lead. Checks 1, 2, 7, 9, 8, 13;
 * 8 is of the whole run, and 13 stands in the place of 10. Accepted: count is b, the block is the 64 tones from
 * run + start on, the caller's own, and records and codes are those that olivia_decode_block gives for them: the
 * first b elements of codes are the block's codes. At every earlier start the tones are unclear, with 13 at every
 * start. If a block was sent, and is heard from place s of the run on with u tones missing and r replaced, then a
 * start is found that is s or before it, provided that 64 - 2u - 4r is at least the set lead; and if the start
 * found is s, and 2u + 4r is below 64 plus the set lead, the codes are the text sent. An earlier start can be
 * accepted by chance, with a text that nobody sent; how often, by mode and set lead, is in docs/SEARCH.md. With a
 * smaller set lead the start found is the same or an earlier one. */
olivia_found olivia_find_block(uint32_t mode, uint32_t least_lead, const uint16_t *run, size_t n,
                               uint8_t *codes, size_t room);

/* Checks the n tones of a block without knowing its text: adds up, for each character, the squares of the 64
 * correlations that olivia_decode_block decides it by. Checks 1, 7, 8. total is 64 times the number of tones that
 * are not missing, and every sum equals it, whatever was sent and whatever noise did to the tones. If twice the
 * square of one correlation is above total, its word is the only one of greatest magnitude: the character is
 * decided for it, with a lead of at least 2. */
olivia_energies olivia_energy(uint32_t mode, const uint16_t *tones, size_t n);

/* The same by the correlations of olivia_decode_weighted. Checks 1, 7, 8, 14. total is 64 times the sum of the
 * squared weights of the tones that are not missing. */
olivia_energies olivia_weighted_energy(uint32_t mode, const uint16_t *tones, size_t n,
                                       const uint8_t *weights, size_t weights_n);

/* Encodes a text of n codes; code 0 fills the last block. Checks 1, 5, 9, 6. Accepted: count is
 * 64 * ceil(n / b), and so many elements at the front of tones are the message's tones. */
olivia_answer olivia_encode_message(uint32_t mode, const uint8_t *text, size_t n, uint16_t *tones, size_t room);

/* Decodes the n tones of a message. Every block is decided before anything is written. Checks 1, 2, 7, 9, 8,
 * 10, 11, 12. Accepted: count is the place after the last code that is not 0, or 0, and so many elements at the
 * front of text are the message's codes. The room asked for, b bytes a block, counts the filling that is not
 * written. With a greater set lead, up to 64, answer and text are the same, or the answer is refusal 10. */
olivia_answer olivia_decode_message(uint32_t mode, uint32_t least_lead, const uint16_t *tones, size_t n,
                                    uint8_t *text, size_t room);

/* Check 8 of decoding by itself, on any number n of tones, which are only read. It looks at one after the other,
 * and stops at the first bad one, which is neither below 2^b nor a missing mark. Checks 1, 8. looked is n if no
 * tone is bad, the place plus one with refusal 8, and 0 with refusal 1, where no tone is looked at. 0 tones are
 * accepted. */
olivia_looked olivia_check_tones(uint32_t mode, const uint16_t *tones, size_t n);

/* The frequency of a tone in Hz, exactly: centre - width / 2 + spacing / 2 + spacing * tone, where spacing is
 * width / 2^b. Checks 1, 3, 4, 8; the missing mark is no tone here. */
olivia_hertz olivia_frequency(uint32_t mode, uint32_t width, uint32_t centre, uint16_t tone);

/* The tone that a measured frequency hertz belongs to, and how far it is off that tone's frequency. The band reaches
 * from centre - width / 2 up to, but without, centre + width / 2. Tone n owns the stretch from the lower edge plus n
 * spacings up to, but without, the next such edge. hertz may be any double and is compared with these edges by its
 * own value, with nothing rounded; -0.0 is 0. Checks 1, 3, 4, 15, 16. Accepted exactly if no setting is refused and
 * hertz is a number in the band: tone is the one that owns it, and hertz_off is hertz - f, one subtraction of doubles,
 * for the frequency f that olivia_frequency gives of that tone. It is at least minus half a spacing, and below half a
 * spacing. For f itself it is 0.0. */
olivia_located olivia_locate(uint32_t mode, uint32_t width, uint32_t centre, double hertz);

/* A sender with nothing waiting. What follows of handing in and sending holds from a new sender on, each call getting
 * the state that the last one left. Any other state still gets a result, which is left open, but that a call that is
 * refused, or has none waiting, keeps it, that 1, 5, 6, 17 and 9 are answered as always, and that the 64 tones of a
 * block sent are those of some text of its mode. */
olivia_sender olivia_sender_new(void);

/* A depot, 0 to 29, hands in a block of n codes. Checks 1, 5, 6, 17, 18, 19. Taken with number 0 if the depot has under
 * 8 waiting and, after taking it, the sum over all depots of the larger of 4 and its waiting blocks is at most 150: so
 * a depot with under 4 waiting meets neither 18 nor 19. count is 0. What another depot has waiting does not change. */
olivia_answer olivia_hand_in(olivia_sender *sender, uint32_t depot, uint32_t mode, const uint8_t *codes, size_t n);

/* Sends a block: of the first depot with one, looking from the one after the last served, from 0 when new, 29 followed
 * by 0, its oldest, in the mode it was handed in with. Check 9, before anything else, of an output under 64 tones:
 * no block is taken out. A block is sent with number 0 and count 64: the first 64 elements of tones are what
 * olivia_encode_block gives for it, and its place is used again. A depot's blocks are sent in the order in which they
 * were taken, and a depot with a block waiting is served within 30 sends, refused ones not counted. If no depot has
 * one, count is 0 and nothing is written. Blocks taken are as many as blocks sent and blocks waiting. */
olivia_sent olivia_send(olivia_sender *sender, uint16_t *tones, size_t room);

/* Writes the sentence of a refusal in words, as a log takes it: the one that docs/REFUSALS.md lists for this
 * number, with place and lead in decimal without zeros in front. Printable ASCII, with no line feed and no zero
 * byte at its end. number is that of any refusal of the list, place 0 to 65,535, whether or not that refusal has
 * such a place, and lead 0 to 960 for 10 and 0 for any other. Checks 20, 9; 20 at place 0, whatever the room, and
 * 9 of a room under the sentence's length. Accepted: count is this length, and so many elements at the front of
 * out are the sentence. Two different refusals, places or leads never have the same sentence, and
 * olivia_read_sentence gives for what is written the number, place and lead that it was written for. */
olivia_answer olivia_write_sentence(uint32_t number, uint32_t place, uint32_t lead, uint8_t *out, size_t room);

/* Reads the n bytes of a sentence, which are only read, back to the refusal that it says. Check 20. Accepted are
 * exactly the sentences that olivia_write_sentence writes, from the first byte to the last: number, place and lead
 * are then those that it writes these n bytes for. With 20 the answer's place is the length of the longest
 * beginning that the bytes share with any sentence of the list, of every number, place and lead: 0 of no bytes, n
 * if they are a proper beginning of a sentence, and a sentence's length if they are that sentence and more. A digit
 * behind a place or lead of 0, or one by which a place passes 65,535 or a lead 960, is not shared. */
olivia_sentence_read olivia_read_sentence(const uint8_t *bytes, size_t n);

/* Encodes the block text into tones, decodes the tones written into one, and decodes heard into two. Each answer
 * and output is that of the call of olivia_encode_block or olivia_decode_block; if encoding is refused, no tone
 * is sent. missing is the number u of marks in heard, and replaced the number r of places where another tone
 * than the one sent is heard, and no mark. If text is b codes below 128, heard is 64 tones below 2^b or marks,
 * and no setting or room is refused, then encoded has number 0 and count 64, and first number 0 and count b with
 * text in one. If 64 - 2u - 4r is at least the set lead, second has number 0 and count b with text in two. If
 * 2u + 4r is below 64 plus the set lead, second is that, or has number 10 with the place and lead of the lowest
 * unclear character, and two is as it was. */
olivia_trial olivia_trial_run(uint32_t mode, uint32_t least_lead, const uint8_t *text, size_t n,
                              const uint16_t *heard, size_t heard_n, uint16_t *tones, size_t tones_room,
                              uint8_t *one, size_t one_room, uint8_t *two, size_t two_room);

/* Encodes the block text into tones, decodes the tones written with weight 15 throughout into first, and decodes
 * heard with the weights into second. Each answer and output is that of the call of olivia_encode_block or
 * olivia_decode_weighted; if encoding is refused, no tone is sent. damage is D, the sum over the places of heard of
 * 15 at a mark, 15 plus the weight where another tone than the one sent is heard, and 15 minus the weight, or 0 if
 * that is less, at every other; the weight is 0 where none is passed. If text is b codes below 128, heard is 64
 * tones below 2^b or marks with 64 weights up to 15, and no setting or room is refused, then encoded has number 0
 * and count 64, and first number 0 and count b with text in its output. If 960 - 2D is at least the set lead,
 * second is the same with text in its output. If 2D is below 960 plus the set lead, second is that, or has number
 * 10 with the place and lead of the lowest unclear character, and its output is as it was. */
olivia_weighted_trial olivia_weighted_trial_run(uint32_t mode, uint32_t least_lead, const uint8_t *text, size_t n,
                                                const uint16_t *heard, size_t heard_n, const uint8_t *weights,
                                                size_t weights_n, uint16_t *tones, size_t tones_room,
                                                uint8_t *first, size_t first_room, uint8_t *second,
                                                size_t second_room);

#ifdef __cplusplus
}
#endif

#endif
