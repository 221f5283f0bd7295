/*
 * A card of edition 2 is issued, challenged, brought out of step and resynchronised; a vector comes late, and the vectors are made
 * triplets too. Build and run, from the repository's root:
 *
 *     (cd crates/vetrhoss && rt lib); mkdir -p target
 *     cc -std=c99 -Iinclude -o target/example examples/c/example.c crates/vetrhoss/out/libvetrhoss.a && target/example
 *
 * K, OP, AMF and the first RAND are those of TS 35.208, test set 1, so that OPc, RES, CK and IK can be compared with the published
 * ones. In a network K and RAND come from a good source of random numbers, and images are kept in safe storage.
 */
#include <stdio.h>
#include <stdlib.h>
#include <string.h>

#include "vetrhoss.h"

#define VECTORS 5

static const uint8_t k[VETRHOSS_K_SIZE] = {0x46, 0x5b, 0x5c, 0xe8, 0xb1, 0x99, 0xb4, 0x9f,
                                           0xaa, 0x5f, 0x0a, 0x2e, 0xe2, 0x38, 0xa6, 0xbc};
static const uint8_t op[VETRHOSS_OP_SIZE] = {0xcd, 0xc2, 0x02, 0xd5, 0x12, 0x3e, 0x20, 0xf6,
                                             0x2b, 0x6d, 0x67, 0x6a, 0xc7, 0x2c, 0xb3, 0x18};
static const uint8_t amf[VETRHOSS_AMF_SIZE] = {0xb9, 0xb9};
static const uint8_t first_rand[VETRHOSS_RAND_SIZE] = {0x23, 0x55, 0x3c, 0xbe, 0x96, 0x37, 0xa8, 0x9d,
                                                       0x21, 0x8a, 0xe6, 0x4d, 0xae, 0x47, 0xbf, 0x35};
static const uint8_t published_opc[VETRHOSS_OPC_SIZE] = {0xcd, 0x63, 0xcb, 0x71, 0x95, 0x4a, 0x9f, 0x4e,
                                                         0x48, 0xa5, 0x99, 0x4e, 0x37, 0xa0, 0x2b, 0xaf};
static const uint8_t published_res[VETRHOSS_RES_SIZE] = {0xa5, 0x42, 0x11, 0xd5, 0xe3, 0xba, 0x50, 0xbf};

/* The card's answer. */
struct answer {
    uint64_t result;
    uint8_t res[VETRHOSS_RES_SIZE];
    uint8_t ck[VETRHOSS_CK_SIZE];
    uint8_t ik[VETRHOSS_IK_SIZE];
    uint8_t auts[VETRHOSS_AUTS_SIZE];
};

static void show(const char *name, const uint8_t *octets, size_t size)
{
    printf("  %s ", name);
    for (size_t i = 0; i < size; i++) {
        printf("%02x", octets[i]);
    }
    printf("\n");
}

static void expect(int holds, const char *what)
{
    if (!holds) {
        fprintf(stderr, "not as it should be: %s\n", what);
        exit(EXIT_FAILURE);
    }
}

static void expect_number(uint64_t result, unsigned number, const char *what)
{
    if (VETRHOSS_NUMBER(result) != number) {
        fprintf(stderr, "number %u instead of %u: %s\n", VETRHOSS_NUMBER(result), number, what);
        exit(EXIT_FAILURE);
    }
}

static int same(const uint8_t *a, const uint8_t *b, size_t size)
{
    return memcmp(a, b, size) == 0;
}

/* RANDs that differ: the first one with its last octet raised. */
static void make_rands(uint8_t *rands, size_t count, uint8_t raised)
{
    for (size_t i = 0; i < count; i++) {
        uint8_t *rand = rands + i * VETRHOSS_RAND_SIZE;
        memcpy(rand, first_rand, VETRHOSS_RAND_SIZE);
        rand[VETRHOSS_RAND_SIZE - 1] = (uint8_t)(rand[VETRHOSS_RAND_SIZE - 1] + raised + i);
    }
}

static const uint8_t *vector_at(const uint8_t *batch, size_t batch_size, uint64_t place)
{
    uint64_t result = vetrhoss_vector_at(batch, batch_size, place);
    expect_number(result, VETRHOSS_DONE, "the place of a vector");
    return batch + VETRHOSS_VALUE(result);
}

static struct answer challenge(uint8_t *card, const uint8_t *vector)
{
    struct answer answer;
    answer.result = vetrhoss_challenge(card, VETRHOSS_USIM_IMAGE_SIZE_2, vector + VETRHOSS_RAND_OFFSET, VETRHOSS_RAND_SIZE,
                                       vector + VETRHOSS_AUTN_OFFSET, VETRHOSS_AUTN_SIZE, answer.res, sizeof answer.res, answer.ck,
                                       sizeof answer.ck, answer.ik, sizeof answer.ik, answer.auts, sizeof answer.auts);
    return answer;
}

/* A challenge that the card accepts: the serving node compares RES with XRES, and both sides then have CK and IK. */
static void accepted_challenge(uint8_t *card, const uint8_t *vector)
{
    struct answer answer = challenge(card, vector);
    expect_number(answer.result, VETRHOSS_DONE, "the challenge");
    expect(same(answer.res, vector + VETRHOSS_XRES_OFFSET, sizeof answer.res), "RES is XRES");
    expect(same(answer.ck, vector + VETRHOSS_CK_OFFSET, sizeof answer.ck), "CK is the centre's");
    expect(same(answer.ik, vector + VETRHOSS_IK_OFFSET, sizeof answer.ik), "IK is the centre's");
    printf("accepted: SQN %012llx\n", (unsigned long long)VETRHOSS_VALUE(answer.result));
    show("RES ", answer.res, sizeof answer.res);
    show("CK  ", answer.ck, sizeof answer.ck);
    show("IK  ", answer.ik, sizeof answer.ik);
}

/* The same batch for a GSM phone. Of the triplets the first is shown. */
static void convert(const uint8_t *batch)
{
    uint8_t triplets[VECTORS * VETRHOSS_TRIPLET_SIZE];
    uint64_t result = vetrhoss_triplets(batch, VECTORS * VETRHOSS_VECTOR_SIZE, triplets, sizeof triplets);
    expect_number(result, VETRHOSS_DONE, "the triplets");
    expect(same(triplets + VETRHOSS_RAND_OFFSET, first_rand, sizeof first_rand), "RAND stays");
    show("SRES", triplets + VETRHOSS_SRES_OFFSET, VETRHOSS_SRES_SIZE);
    show("Kc  ", triplets + VETRHOSS_KC_OFFSET, VETRHOSS_KC_SIZE);
}

/* OPc from OP, and the two images that a new card begins with. */
static void issue(uint8_t *card, uint8_t *centre)
{
    uint8_t opc[VETRHOSS_OPC_SIZE];
    expect_number(vetrhoss_opc(k, sizeof k, op, sizeof op, opc, sizeof opc), VETRHOSS_DONE, "OPc");
    expect(same(opc, published_opc, sizeof opc), "OPc is the published one");
    show("OPc ", opc, sizeof opc);
    uint64_t result = vetrhoss_new_usim(VETRHOSS_EDITION_2, VETRHOSS_MILENAGE, k, sizeof k, opc, sizeof opc, card,
                                        VETRHOSS_USIM_IMAGE_SIZE_2);
    expect_number(result, VETRHOSS_DONE, "the card");
    result = vetrhoss_new_auc(VETRHOSS_EDITION_2, VETRHOSS_MILENAGE, k, sizeof k, opc, sizeof opc, amf, sizeof amf, centre,
                              VETRHOSS_AUC_IMAGE_SIZE_2);
    expect_number(result, VETRHOSS_DONE, "the centre's record");
}

/* One fresh vector after a challenge that the card answered with AUTS. */
static void resynchronise(uint8_t *centre, const uint8_t *failed, const uint8_t *auts, uint8_t *fresh)
{
    uint8_t rand[VETRHOSS_RAND_SIZE];
    make_rands(rand, 1, VECTORS);
    uint64_t result = vetrhoss_resynchronise(centre, VETRHOSS_AUC_IMAGE_SIZE_2, 1, failed + VETRHOSS_RAND_OFFSET, VETRHOSS_RAND_SIZE,
                                             auts, VETRHOSS_AUTS_SIZE, rand, sizeof rand, fresh, VETRHOSS_VECTOR_SIZE);
    expect_number(result, VETRHOSS_DONE, "the resynchronisation");
    printf("%s\n", VETRHOSS_VALUE(result) == VETRHOSS_KEPT ? "SEQ_HE was kept" : "SEQ_HE was reset");
}

int main(void)
{
    uint8_t card[VETRHOSS_USIM_IMAGE_SIZE_2];
    uint8_t centre[VETRHOSS_AUC_IMAGE_SIZE_2];
    uint8_t rands[VECTORS * VETRHOSS_RAND_SIZE];
    uint8_t batch[VECTORS * VETRHOSS_VECTOR_SIZE];
    uint8_t fresh[VETRHOSS_VECTOR_SIZE];

    printf("a card is issued\n");
    issue(card, centre);

    printf("the centre makes 5 vectors\n");
    make_rands(rands, VECTORS, 0);
    uint64_t result = vetrhoss_order(centre, sizeof centre, VECTORS, rands, sizeof rands, batch, sizeof batch);
    expect_number(result, VETRHOSS_DONE, "the order");

    printf("the vectors are made triplets\n");
    convert(batch);

    printf("the first vector is used\n");
    const uint8_t *first = vector_at(batch, sizeof batch, 0);
    expect(same(first + VETRHOSS_XRES_OFFSET, published_res, sizeof published_res), "XRES is the published one");
    accepted_challenge(card, first);

    printf("three vectors are passed over and the last is used\n");
    accepted_challenge(card, vector_at(batch, sizeof batch, 4));

    printf("the second comes late\n");
    accepted_challenge(card, vector_at(batch, sizeof batch, 1));

    printf("the first challenge comes once more\n");
    struct answer failure = challenge(card, first);
    expect_number(failure.result, VETRHOSS_SYNCH_FAILURE, "a repeated challenge");
    printf("synchronisation failure\n");
    show("AUTS", failure.auts, sizeof failure.auts);

    printf("the centre resynchronises and makes 1 vector\n");
    resynchronise(centre, first, failure.auts, fresh);
    accepted_challenge(card, fresh);
    return EXIT_SUCCESS;
}
