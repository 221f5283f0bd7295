/* libosmogsm's vectors for the benchmark: one subscriber, one RAND a call. The last vector is kept, so that it can be compared. */
#include <string.h>

#include <osmocom/crypt/auth.h>

static struct osmo_sub_auth_data subscriber;
static struct osmo_auth_vector last;

/* The next vector has the SEQ behind the given one, and the given index of 5 bits. */
void peer_subscriber(const uint8_t *k, const uint8_t *opc, const uint8_t *amf, uint64_t seq, unsigned ind)
{
    memset(&subscriber, 0, sizeof subscriber);
    subscriber.type = OSMO_AUTH_TYPE_UMTS;
    subscriber.algo = OSMO_AUTH_ALG_MILENAGE;
    memcpy(subscriber.u.umts.k, k, 16);
    memcpy(subscriber.u.umts.opc, opc, 16);
    memcpy(subscriber.u.umts.amf, amf, 2);
    subscriber.u.umts.sqn = seq << 5;
    subscriber.u.umts.ind_bitlen = 5;
    subscriber.u.umts.ind = ind;
}

int peer_vector(const uint8_t *rand)
{
    return osmo_auth_gen_vec(&last, &subscriber, rand);
}

/* Exported by libosmogsm, but in no installed header; weak, so that a version without it still serves. */
__attribute__((weak)) int milenage_generate(const uint8_t *opc, const uint8_t *amf, const uint8_t *k, const uint8_t *sqn,
                                            const uint8_t *rand, uint8_t *autn, uint8_t *ik, uint8_t *ck, uint8_t *res,
                                            size_t *res_size);

/* The same vector without the GSM keys. */
int peer_generate(const uint8_t *rand)
{
    uint64_t next = (((subscriber.u.umts.sqn >> 5) + 1) << 5) + subscriber.u.umts.ind;
    uint8_t sqn[6];
    size_t res_size = 8;
    if (milenage_generate == NULL) {
        return -1;
    }
    for (int i = 0; i < 6; i++) {
        sqn[i] = (uint8_t)(next >> (40 - 8 * i));
    }
    subscriber.u.umts.sqn = next;
    memcpy(last.rand, rand, 16);
    return milenage_generate(subscriber.u.umts.opc, subscriber.u.umts.amf, subscriber.u.umts.k, sqn, rand, last.autn, last.ik, last.ck,
                             last.res, &res_size);
}

int peer_resynchronise(const uint8_t *auts, const uint8_t *failed, const uint8_t *rand)
{
    return osmo_auth_gen_vec_auts(&last, &subscriber, auts, failed, rand);
}

/* The last vector in the order RAND, XRES, CK, IK, AUTN. */
void peer_last(uint8_t *vector)
{
    memcpy(vector, last.rand, 16);
    memcpy(vector + 16, last.res, 8);
    memcpy(vector + 24, last.ck, 16);
    memcpy(vector + 40, last.ik, 16);
    memcpy(vector + 56, last.autn, 16);
}

/* The same vector as a triplet, RAND, SRES, Kc. Only osmo_auth_gen_vec and osmo_auth_gen_vec_auts derive the latter two. */
void peer_triplet(uint8_t *triplet)
{
    memcpy(triplet, last.rand, 16);
    memcpy(triplet + 16, last.sres, 4);
    memcpy(triplet + 20, last.kc, 8);
}
