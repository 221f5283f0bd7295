//! The functions of `include/vetrhoss.h`.

extern "C" {
    pub fn vetrhoss_opc(
        k: *const u8,
        k_size: usize,
        op: *const u8,
        op_size: usize,
        opc: *mut u8,
        opc_size: usize,
    ) -> u64;

    pub fn vetrhoss_new_usim(
        edition: u8,
        set: u8,
        k: *const u8,
        k_size: usize,
        opc: *const u8,
        opc_size: usize,
        image: *mut u8,
        image_size: usize,
    ) -> u64;

    pub fn vetrhoss_new_auc(
        edition: u8,
        set: u8,
        k: *const u8,
        k_size: usize,
        opc: *const u8,
        opc_size: usize,
        amf: *const u8,
        amf_size: usize,
        image: *mut u8,
        image_size: usize,
    ) -> u64;

    pub fn vetrhoss_challenge(
        image: *mut u8,
        image_size: usize,
        rand: *const u8,
        rand_size: usize,
        autn: *const u8,
        autn_size: usize,
        res: *mut u8,
        res_size: usize,
        ck: *mut u8,
        ck_size: usize,
        ik: *mut u8,
        ik_size: usize,
        auts: *mut u8,
        auts_size: usize,
    ) -> u64;

    pub fn vetrhoss_order(
        image: *mut u8,
        image_size: usize,
        count: u64,
        rands: *const u8,
        rands_size: usize,
        batch: *mut u8,
        batch_size: usize,
    ) -> u64;

    pub fn vetrhoss_resynchronise(
        image: *mut u8,
        image_size: usize,
        count: u64,
        rand: *const u8,
        rand_size: usize,
        auts: *const u8,
        auts_size: usize,
        rands: *const u8,
        rands_size: usize,
        batch: *mut u8,
        batch_size: usize,
    ) -> u64;

    pub fn vetrhoss_vector_at(batch: *const u8, batch_size: usize, k: u64) -> u64;

    pub fn vetrhoss_triplets(
        batch: *const u8,
        batch_size: usize,
        triplets: *mut u8,
        triplets_size: usize,
    ) -> u64;
}
