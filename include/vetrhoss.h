/*
 * Vetrhoss: the authentication centre and the card of a 3G network (TS 33.102 clause 6.3 with MILENAGE, TS 35.206).
 * Link with libvetrhoss.a, which needs memcpy and memset of the C library and nothing else.
 *
 * Card and centre are packed images in the caller's memory. The library keeps nothing between calls and allocates nothing,
 * so calls on different buffers may run at the same time.
 *
 * A buffer is a pointer and its size in octets. No size has to be right: another one than named is refused. C cannot have the
 * following checked, so the caller answers for it:
 * - a pointer is not null, also where its size is 0, and that many octets from it on are the caller's;
 * - the buffers of one call do not overlap where one of them is written to.
 *
 * Every function returns one number: VETRHOSS_NUMBER(result) says what happened, VETRHOSS_VALUE(result) goes with it and
 * is 0 where nothing else is said. On a refusal (1 to 9) every buffer, images among them, stays octet for octet as it was.
 *
 * Each image carries its edition, 1 or 2, in the first four bits. It says how many indices SQN has, how high SEQ may go and
 * what size the image has. A call leaves an image in the edition that it came in. A card and a centre of unlike editions are
 * not refused, and nothing is promised of the two together.
 *
 * An image that is lent is read first, and what its reading refuses is the call's answer, before every other refusal: 3 for
 * size 0, then 1 for an unknown edition, whatever the size is, then 3 for another size than that edition's, then 1 for an
 * unknown function set. Of the refusals behind it the lowest number that applies is given.
 */
#ifndef VETRHOSS_H
#define VETRHOSS_H

#include <stddef.h>
#include <stdint.h>

#ifdef __cplusplus
extern "C" {
#endif

/* The two parts of a result. */
#define VETRHOSS_NUMBER(result) ((unsigned)((result) & 0xffu))
#define VETRHOSS_VALUE(result) ((uint64_t)(result) >> 8)

/* Numbers. The causes 20 and 21 are those of TS 24.008. The refusals 7 to 9 belong to the serving node and are not given here. */
#define VETRHOSS_DONE 0
#define VETRHOSS_BAD_IMAGE 1   /* unknown edition or function set */
#define VETRHOSS_BAD_COUNT 2   /* more than 5 vectors */
#define VETRHOSS_BAD_SIZE 3    /* a buffer of another size than named, or a vector past the batch */
#define VETRHOSS_EQUAL_RANDS 4 /* two RANDs of one batch are equal */
#define VETRHOSS_BAD_MAC_S 5   /* SEQ_HE is out of range and MAC-S is wrong */
#define VETRHOSS_PAST_LIMIT 6  /* the last SEQ would pass its limit */
#define VETRHOSS_MAC_FAILURE 20
#define VETRHOSS_SYNCH_FAILURE 21

/* The places, from 0, of the earliest pair of equal RANDs: for a result of VETRHOSS_EQUAL_RANDS. */
#define VETRHOSS_FIRST(result) ((unsigned)(VETRHOSS_VALUE(result) & 0xffu))
#define VETRHOSS_SECOND(result) ((unsigned)(VETRHOSS_VALUE(result) >> 8))

/* What a resynchronisation that is done did with SEQ_HE: its value. */
#define VETRHOSS_KEPT 0
#define VETRHOSS_RESET 1

/* Editions. The first has 32 indices, one for each batch; the second 64, one for each vector, so that a vector among the last 50
 * may come late. */
#define VETRHOSS_EDITION_1 1
#define VETRHOSS_EDITION_2 2

/* Function sets. */
#define VETRHOSS_TEST_SET 0 /* without any secrecy: for trying things out only */
#define VETRHOSS_MILENAGE 1

/* Sizes in octets. */
#define VETRHOSS_K_SIZE 16
#define VETRHOSS_OP_SIZE 16
#define VETRHOSS_OPC_SIZE 16
#define VETRHOSS_AMF_SIZE 2
#define VETRHOSS_RAND_SIZE 16
#define VETRHOSS_AUTN_SIZE 16
#define VETRHOSS_RES_SIZE 8
#define VETRHOSS_CK_SIZE 16
#define VETRHOSS_IK_SIZE 16
#define VETRHOSS_AUTS_SIZE 14
#define VETRHOSS_SRES_SIZE 4
#define VETRHOSS_KC_SIZE 8

/* Sizes of images in octets, by edition. */
#define VETRHOSS_USIM_IMAGE_SIZE_1 205
#define VETRHOSS_USIM_IMAGE_SIZE_2 369
#define VETRHOSS_AUC_IMAGE_SIZE_1 41
#define VETRHOSS_AUC_IMAGE_SIZE_2 41

/* A vector, and where its parts begin; XRES has the size of RES. A batch is 1 to 5 vectors one behind the other. */
#define VETRHOSS_VECTOR_SIZE 72
#define VETRHOSS_RAND_OFFSET 0
#define VETRHOSS_XRES_OFFSET 16
#define VETRHOSS_CK_OFFSET 24
#define VETRHOSS_IK_OFFSET 40
#define VETRHOSS_AUTN_OFFSET 56
#define VETRHOSS_LARGEST_BATCH 5

/* A triplet, for GSM phones, and where its parts begin; RAND begins where it does in a vector. */
#define VETRHOSS_TRIPLET_SIZE 28
#define VETRHOSS_SRES_OFFSET 16
#define VETRHOSS_KC_OFFSET 20

/*
 * OPc of a subscriber: OP xor E(OP) under K.
 * k, op: 16 octets each, read. opc: 16, written.
 * Refusals: 3.
 */
uint64_t vetrhoss_opc(const uint8_t *k, size_t k_size, const uint8_t *op, size_t op_size, uint8_t *opc, size_t opc_size);

/*
 * The image of a new card, whose places are all 0.
 * edition: 1 or 2. set: 0 or 1. k, opc: 16 octets each, read. image: 205 in edition 1, 369 in edition 2, written.
 * Refusals: 1 an unknown edition, or a set above 1; then 3.
 */
uint64_t vetrhoss_new_usim(uint8_t edition, uint8_t set, const uint8_t *k, size_t k_size, const uint8_t *opc, size_t opc_size,
                           uint8_t *image, size_t image_size);

/*
 * The image of a new centre record for one subscriber, whose SEQ_HE and next index are 0.
 * edition: 1 or 2. set: 0 or 1. k, opc: 16 octets each, amf: 2, read. image: 41 in either edition, written.
 * Refusals: 1 an unknown edition, or a set above 1; then 3.
 */
uint64_t vetrhoss_new_auc(uint8_t edition, uint8_t set, const uint8_t *k, size_t k_size, const uint8_t *opc, size_t opc_size,
                          const uint8_t *amf, size_t amf_size, uint8_t *image, size_t image_size);

/*
 * The card's answer to a challenge.
 * image: the card's 205 or 369 octets, read, and updated in place on acceptance only. rand, autn: 16 each, read.
 * res: 8, ck, ik: 16 each, auts: 14, all four written; what a verdict does not give is zeros.
 * Number 0: accepted; the value is the accepted SQN (48 bits: SEQ, then 5 or 6 of the index); res, ck and ik are given.
 * Number 20: MAC failure; nothing is given. Number 21: synchronisation failure; auts is given.
 * Refusals: the image's, 1 or 3; then 3 any other buffer.
 */
uint64_t vetrhoss_challenge(uint8_t *image, size_t image_size, const uint8_t *rand, size_t rand_size, const uint8_t *autn,
                            size_t autn_size, uint8_t *res, size_t res_size, uint8_t *ck, size_t ck_size, uint8_t *ik,
                            size_t ik_size, uint8_t *auts, size_t auts_size);

/*
 * A batch of fresh vectors from the centre.
 * image: the centre's 41 octets, read, and updated in place when the batch is given: store it before a vector is used.
 * count: 1 to 5 vectors, or 0 for 5; n is the number that results.
 * rands: 16 n octets, read: unpredictable, no two RANDs equal. batch: 72 n, written.
 * Refusals: the image's, 1 or 3, whatever the count is; then 2, 3, 4 (see VETRHOSS_FIRST and VETRHOSS_SECOND), and 6 where the
 * last SEQ would pass 8,796,093,022,207 in edition 1, or 4,398,046,511,103 in edition 2.
 */
uint64_t vetrhoss_order(uint8_t *image, size_t image_size, uint64_t count, const uint8_t *rands, size_t rands_size, uint8_t *batch,
                        size_t batch_size);

/*
 * The same after a synchronisation failure; vectors of the card from earlier batches are to be dropped.
 * rand: the 16 octets of the challenge that failed, auts: the card's 14 octets, both read. The others are as in vetrhoss_order.
 * The value with number 0: VETRHOSS_KEPT, SEQ_HE was in range and the batch goes on from it (MAC-S is then not looked at);
 * VETRHOSS_RESET, MAC-S was right and SEQ_HE first became the card's SEQ_MS.
 * Refusals: those of vetrhoss_order, 3 for rand and auts too, and 5.
 */
uint64_t vetrhoss_resynchronise(uint8_t *image, size_t image_size, uint64_t count, const uint8_t *rand, size_t rand_size,
                                const uint8_t *auts, size_t auts_size, const uint8_t *rands, size_t rands_size, uint8_t *batch,
                                size_t batch_size);

/*
 * Where vector k, counted from 0, stands in a batch: the value is its offset, 72 k.
 * batch: 72 to 360 octets, a multiple of 72; its contents are not looked at.
 * Refusals: 3 a batch of another size, or k past it.
 */
uint64_t vetrhoss_vector_at(const uint8_t *batch, size_t batch_size, uint64_t k);

/*
 * The triplets of a batch, one for each vector and in their order: RAND as it is, SRES of XRES and Kc of CK and IK (TS 33.102 clause
 * 6.8.1.2, the conversions c2 and c3).
 * batch: 72 to 360 octets, a multiple of 72, read; n is the number of its vectors. triplets: 28 n, written.
 * Refusals: 3.
 */
uint64_t vetrhoss_triplets(const uint8_t *batch, size_t batch_size, uint8_t *triplets, size_t triplets_size);

#ifdef __cplusplus
}
#endif

#endif
