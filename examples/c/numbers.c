/*
 * Each number that a call can give, brought about in each edition and looked for by its name in the header. Build and run, from the
 * repository's root:
 *
 *     (cd crates/vetrhoss && rt lib); mkdir -p target
 *     cc -std=c99 -Iinclude -o target/numbers examples/c/numbers.c crates/vetrhoss/out/libvetrhoss.a && target/numbers
 *
 * The keys are of the test set, which has no secrecy.
 */
#include <stdio.h>
#include <stdlib.h>
#include <string.h>

#include "vetrhoss.h"

static const uint8_t k[VETRHOSS_K_SIZE] = {0, 1, 2, 3, 4, 5, 6, 7, 8, 9, 10, 11, 12, 13, 14, 15};
static const uint8_t opc[VETRHOSS_OPC_SIZE] = {0};
static const uint8_t amf[VETRHOSS_AMF_SIZE] = {0, 1};

/* What the header says of an edition, and the bits of its index. */
struct edition {
    uint8_t number;
    size_t usim_image_size;
    size_t auc_image_size;
    unsigned index_width;
};

static const struct edition editions[] = {
    {VETRHOSS_EDITION_1, VETRHOSS_USIM_IMAGE_SIZE_1, VETRHOSS_AUC_IMAGE_SIZE_1, 5},
    {VETRHOSS_EDITION_2, VETRHOSS_USIM_IMAGE_SIZE_2, VETRHOSS_AUC_IMAGE_SIZE_2, 6},
};

/* The one that is tried. */
static struct edition edition;

/* The images have the sizes of that edition; the card's of edition 2 is the longest. */
static uint8_t card[VETRHOSS_USIM_IMAGE_SIZE_2];
static uint8_t centre[VETRHOSS_AUC_IMAGE_SIZE_2];
static uint8_t batch[VETRHOSS_LARGEST_BATCH * VETRHOSS_VECTOR_SIZE];
static uint8_t res[VETRHOSS_RES_SIZE];
static uint8_t ck[VETRHOSS_CK_SIZE];
static uint8_t ik[VETRHOSS_IK_SIZE];
static uint8_t auts[VETRHOSS_AUTS_SIZE];

static void expect(const char *what, uint64_t found, uint64_t named)
{
    if (found != named) {
        fprintf(stderr, "%s: %llu, and the header says %llu\n", what, (unsigned long long)found, (unsigned long long)named);
        exit(EXIT_FAILURE);
    }
}

/* The number, and a value of 0 with it. */
static void expect_number(const char *what, uint64_t result, unsigned number)
{
    expect(what, VETRHOSS_NUMBER(result), number);
    expect(what, VETRHOSS_VALUE(result), 0);
}

static void new_card(void)
{
    uint64_t result = vetrhoss_new_usim(edition.number, VETRHOSS_TEST_SET, k, sizeof k, opc, sizeof opc, card, edition.usim_image_size);
    expect_number("a new card", result, VETRHOSS_DONE);
}

static void new_centre(void)
{
    uint64_t result = vetrhoss_new_auc(edition.number, VETRHOSS_TEST_SET, k, sizeof k, opc, sizeof opc, amf, sizeof amf, centre,
                                       edition.auc_image_size);
    expect_number("a new centre", result, VETRHOSS_DONE);
}

/* For each first octet a RAND that counts up from it. */
static void fill_rands(uint8_t *rands, const uint8_t *first, size_t count)
{
    for (size_t i = 0; i < count * VETRHOSS_RAND_SIZE; i++) {
        rands[i] = (uint8_t)(first[i / VETRHOSS_RAND_SIZE] + i % VETRHOSS_RAND_SIZE);
    }
}

static uint64_t order(uint64_t count, const uint8_t *first, size_t size)
{
    uint8_t rands[VETRHOSS_LARGEST_BATCH * VETRHOSS_RAND_SIZE];
    fill_rands(rands, first, size);
    return vetrhoss_order(centre, edition.auc_image_size, count, rands, size * VETRHOSS_RAND_SIZE, batch, size * VETRHOSS_VECTOR_SIZE);
}

/* The card is challenged with the first vector of the batch. */
static uint64_t challenge(void)
{
    return vetrhoss_challenge(card, edition.usim_image_size, batch + VETRHOSS_RAND_OFFSET, VETRHOSS_RAND_SIZE, batch + VETRHOSS_AUTN_OFFSET,
                              VETRHOSS_AUTN_SIZE, res, sizeof res, ck, sizeof ck, ik, sizeof ik, auts, sizeof auts);
}

/* One vector after the failure of the batch's first, written where it does not touch that one. */
static uint64_t resynchronise(const uint8_t *lent)
{
    uint8_t rand[VETRHOSS_RAND_SIZE];
    memset(rand, 9, sizeof rand);
    return vetrhoss_resynchronise(centre, edition.auc_image_size, 1, batch + VETRHOSS_RAND_OFFSET, VETRHOSS_RAND_SIZE, lent,
                                  VETRHOSS_AUTS_SIZE, rand, sizeof rand, batch + VETRHOSS_VECTOR_SIZE, VETRHOSS_VECTOR_SIZE);
}

/* An image is read first: its refusal comes before the count's. Of its own refusals the edition's comes before the size's. */
static void images_first(void)
{
    const uint64_t six = VETRHOSS_LARGEST_BATCH + 1;
    const size_t size = edition.auc_image_size;
    expect_number("no image, and a count too large", vetrhoss_order(centre, 0, six, k, 0, batch, sizeof batch), VETRHOSS_BAD_SIZE);
    expect_number("an image too short, and a count too large", vetrhoss_order(centre, size - 1, six, k, 0, batch, sizeof batch),
                  VETRHOSS_BAD_SIZE);
    centre[0] ^= 0xf0;
    expect_number("an unknown edition, and a count too large", vetrhoss_order(centre, size, six, k, 0, batch, sizeof batch),
                  VETRHOSS_BAD_IMAGE);
    expect_number("an unknown edition in an image too short", vetrhoss_order(centre, 1, six, k, 0, batch, sizeof batch),
                  VETRHOSS_BAD_IMAGE);
    centre[0] ^= 0xf0;
    centre[0] ^= 0x0f;
    expect_number("an unknown set in an image too short", vetrhoss_order(centre, size - 1, six, k, 0, batch, sizeof batch),
                  VETRHOSS_BAD_SIZE);
    expect_number("an unknown set", vetrhoss_order(centre, size, six, k, 0, batch, sizeof batch), VETRHOSS_BAD_IMAGE);
    centre[0] ^= 0x0f;
}

/* An unknown edition or set of a new image comes before every size. */
static void new_images(void)
{
    const size_t size = edition.usim_image_size;
    const uint8_t e = edition.number;
    expect_number("edition 0", vetrhoss_new_usim(0, VETRHOSS_TEST_SET, k, 1, opc, 1, card, size), VETRHOSS_BAD_IMAGE);
    expect_number("edition 3", vetrhoss_new_usim(3, VETRHOSS_TEST_SET, k, 1, opc, 1, card, size), VETRHOSS_BAD_IMAGE);
    expect_number("set 2", vetrhoss_new_usim(e, 2, k, 1, opc, 1, card, 0), VETRHOSS_BAD_IMAGE);
    expect_number("a card too short", vetrhoss_new_usim(e, VETRHOSS_MILENAGE, k, sizeof k, opc, sizeof opc, card, size - 1),
                  VETRHOSS_BAD_SIZE);
}

static void refusals(void)
{
    static const uint8_t unequal[VETRHOSS_LARGEST_BATCH] = {1, 2, 3, 4, 5};
    static const uint8_t equal[3] = {1, 2, 2};
    expect_number("a count too large", order(VETRHOSS_LARGEST_BATCH + 1, unequal, 5), VETRHOSS_BAD_COUNT);
    expect_number("RANDs of another size", order(2, unequal, 1), VETRHOSS_BAD_SIZE);
    uint64_t result = order(3, equal, 3);
    expect("equal RANDs", VETRHOSS_NUMBER(result), VETRHOSS_EQUAL_RANDS);
    expect("the first of them", VETRHOSS_FIRST(result), 1);
    expect("the second of them", VETRHOSS_SECOND(result), 2);
    expect_number("a count of 0", order(0, unequal, VETRHOSS_LARGEST_BATCH), VETRHOSS_DONE);
    expect("the last vector", VETRHOSS_VALUE(vetrhoss_vector_at(batch, sizeof batch, 4)), 4 * VETRHOSS_VECTOR_SIZE);
    expect_number("a vector past them", vetrhoss_vector_at(batch, sizeof batch, 5), VETRHOSS_BAD_SIZE);

    /* SEQ_HE at its limit: bits of 1, then those of the next index */
    memset(centre + edition.auc_image_size - 6, 0xff, 5);
    centre[edition.auc_image_size - 1] = (uint8_t)(0xff << edition.index_width);
    expect_number("SEQ_HE at its limit", order(1, unequal, 1), VETRHOSS_PAST_LIMIT);
}

static void verdicts(void)
{
    static const uint8_t one[1] = {1};
    new_centre();
    expect_number("an order", order(1, one, 1), VETRHOSS_DONE);
    batch[VETRHOSS_AUTN_OFFSET + VETRHOSS_AUTN_SIZE - 1] ^= 1;
    expect_number("a wrong MAC", challenge(), VETRHOSS_MAC_FAILURE);
    batch[VETRHOSS_AUTN_OFFSET + VETRHOSS_AUTN_SIZE - 1] ^= 1;
    uint64_t result = challenge();
    expect("a right one", VETRHOSS_NUMBER(result), VETRHOSS_DONE);
    expect("its SQN", VETRHOSS_VALUE(result), 1u << edition.index_width);
    expect("RES of the test set: K xor RAND", res[1], (uint8_t)(k[1] ^ batch[VETRHOSS_RAND_OFFSET + 1]));
    expect("RES", (uint64_t)memcmp(res, batch + VETRHOSS_XRES_OFFSET, sizeof res), 0);
    expect("CK", (uint64_t)memcmp(ck, batch + VETRHOSS_CK_OFFSET, sizeof ck), 0);
    expect("IK", (uint64_t)memcmp(ik, batch + VETRHOSS_IK_OFFSET, sizeof ik), 0);
    expect_number("the same once more", challenge(), VETRHOSS_SYNCH_FAILURE);
}

static void resynchronisations(void)
{
    uint8_t wrong[VETRHOSS_AUTS_SIZE];
    memcpy(wrong, auts, sizeof wrong);
    wrong[VETRHOSS_AUTS_SIZE - 1] ^= 1;
    uint64_t result = resynchronise(auts);
    expect("SEQ_HE in range", VETRHOSS_NUMBER(result), VETRHOSS_DONE);
    expect("SEQ_HE in range", VETRHOSS_VALUE(result), VETRHOSS_KEPT);
    new_centre();
    expect_number("SEQ_HE behind, and MAC-S wrong", resynchronise(wrong), VETRHOSS_BAD_MAC_S);
    result = resynchronise(auts);
    expect("SEQ_HE behind", VETRHOSS_NUMBER(result), VETRHOSS_DONE);
    expect("SEQ_HE behind", VETRHOSS_VALUE(result), VETRHOSS_RESET);
}

/* The triplets of a batch of two: the parts of the second one stand where the header says, and are of the second vector. */
static void triplets(void)
{
    static const uint8_t two[2] = {1, 2};
    uint8_t made[2 * VETRHOSS_TRIPLET_SIZE];
    const size_t batch_size = 2 * VETRHOSS_VECTOR_SIZE;
    new_centre();
    expect_number("an order of 2", order(2, two, 2), VETRHOSS_DONE);
    expect_number("a batch too short", vetrhoss_triplets(batch, batch_size - 1, made, sizeof made), VETRHOSS_BAD_SIZE);
    expect_number("room for 1 of 2", vetrhoss_triplets(batch, batch_size, made, VETRHOSS_TRIPLET_SIZE), VETRHOSS_BAD_SIZE);
    expect_number("room for 2", vetrhoss_triplets(batch, batch_size, made, sizeof made), VETRHOSS_DONE);

    const uint8_t *vector = batch + VETRHOSS_VECTOR_SIZE;
    const uint8_t *triplet = made + VETRHOSS_TRIPLET_SIZE;
    const uint8_t *xres = vector + VETRHOSS_XRES_OFFSET;
    const uint8_t *keys[2] = {vector + VETRHOSS_CK_OFFSET, vector + VETRHOSS_IK_OFFSET};
    expect("RAND", (uint64_t)memcmp(triplet + VETRHOSS_RAND_OFFSET, vector + VETRHOSS_RAND_OFFSET, VETRHOSS_RAND_SIZE), 0);
    for (size_t i = 0; i < VETRHOSS_SRES_SIZE; i++) {
        expect("SRES", triplet[VETRHOSS_SRES_OFFSET + i], (uint8_t)(xres[i] ^ xres[i + VETRHOSS_SRES_SIZE]));
    }
    for (size_t i = 0; i < VETRHOSS_KC_SIZE; i++) {
        const size_t other = i + VETRHOSS_KC_SIZE;
        expect("Kc", triplet[VETRHOSS_KC_OFFSET + i], (uint8_t)(keys[0][i] ^ keys[0][other] ^ keys[1][i] ^ keys[1][other]));
    }
    expect("the end of a triplet", VETRHOSS_KC_OFFSET + VETRHOSS_KC_SIZE, VETRHOSS_TRIPLET_SIZE);
}

/* In edition 2 every vector has an index of its own: the first of two is accepted after the second. */
static void late_vector(void)
{
    static const uint8_t two[2] = {1, 2};
    uint8_t first[VETRHOSS_VECTOR_SIZE];
    new_card();
    new_centre();
    expect_number("an order of 2", order(2, two, 2), VETRHOSS_DONE);
    memcpy(first, batch, sizeof first);
    memcpy(batch, batch + VETRHOSS_VECTOR_SIZE, sizeof first);
    expect("the second", VETRHOSS_NUMBER(challenge()), VETRHOSS_DONE);
    memcpy(batch, first, sizeof first);
    expect("the first", VETRHOSS_NUMBER(challenge()), edition.number == VETRHOSS_EDITION_1 ? VETRHOSS_SYNCH_FAILURE : VETRHOSS_DONE);
}

int main(void)
{
    for (size_t i = 0; i < sizeof editions / sizeof editions[0]; i++) {
        edition = editions[i];
        new_card();
        new_centre();
        images_first();
        new_images();
        refusals();
        verdicts();
        resynchronisations();
        triplets();
        late_vector();
    }
    printf("every number of the header is given where it says\n");
    return EXIT_SUCCESS;
}
