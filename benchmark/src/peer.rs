//! libosmogsm behind `peer.c`, loaded only where it is installed.

use std::ffi::{c_char, c_int, c_void, CString};

use reference::auc::Auc;
use reference::triplet;
use reference::vector::{Bytes, LENGTH};

const RTLD_NOW: c_int = 2;

extern "C" {
    fn dlopen(file: *const c_char, mode: c_int) -> *mut c_void;
    fn dlsym(library: *mut c_void, name: *const c_char) -> *mut c_void;
}

type Subscriber = extern "C" fn(*const u8, *const u8, *const u8, u64, u32);
type Vector = extern "C" fn(*const u8) -> c_int;
type Resynchronise = extern "C" fn(*const u8, *const u8, *const u8) -> c_int;
type Last = extern "C" fn(*mut u8);

/// The functions of `peer.c`. It has one subscriber, which all copies share.
#[derive(Clone, Copy)]
pub struct Peer {
    subscriber: Subscriber,
    vector: Vector,
    generate: Vector,
    resynchronise: Resynchronise,
    last: Last,
    triplet: Last,
}

fn c_string(text: &str) -> CString {
    CString::new(text).expect("a name without a zero byte")
}

impl Peer {
    pub fn load(file: &str) -> Peer {
        let library = unsafe { dlopen(c_string(file).as_ptr(), RTLD_NOW) };
        assert!(!library.is_null(), "{file} cannot be loaded");
        let find = |name| {
            let found = unsafe { dlsym(library, c_string(name).as_ptr()) };
            assert!(!found.is_null(), "{file} has no {name}");
            found
        };
        // The types are those of peer.c.
        unsafe {
            Peer {
                subscriber: std::mem::transmute::<*mut c_void, Subscriber>(find("peer_subscriber")),
                vector: std::mem::transmute::<*mut c_void, Vector>(find("peer_vector")),
                generate: std::mem::transmute::<*mut c_void, Vector>(find("peer_generate")),
                resynchronise: std::mem::transmute::<*mut c_void, Resynchronise>(find(
                    "peer_resynchronise",
                )),
                last: std::mem::transmute::<*mut c_void, Last>(find("peer_last")),
                triplet: std::mem::transmute::<*mut c_void, Last>(find("peer_triplet")),
            }
        }
    }

    /// A centre record whose index stays as it is.
    pub fn set_up(&self, auc: &Auc) {
        let keys = &auc.subscriber;
        (self.subscriber)(
            keys.k.as_ptr(),
            keys.opc.as_ptr(),
            auc.amf.as_ptr(),
            auc.seq_he,
            auc.next.into(),
        );
    }

    pub fn vector(&self, rand: &[u8; 16]) {
        assert_eq!((self.vector)(rand.as_ptr()), 0);
    }

    /// The same without GSM keys; false where the installed library has no
    /// function for that.
    pub fn generate(&self, rand: &[u8; 16]) -> bool {
        (self.generate)(rand.as_ptr()) == 0
    }

    pub fn resynchronise(&self, rand: &[u8; 16], auts: &[u8; 14], fresh: &[u8; 16]) {
        let answer = (self.resynchronise)(auts.as_ptr(), rand.as_ptr(), fresh.as_ptr());
        assert_eq!(answer, 0);
    }

    pub fn last(&self) -> Bytes {
        let mut vector = [0; LENGTH];
        (self.last)(vector.as_mut_ptr());
        vector
    }

    /// The last vector's triplet, where `vector` made it.
    pub fn triplet(&self) -> triplet::Bytes {
        let mut triplet = [0; triplet::LENGTH];
        (self.triplet)(triplet.as_mut_ptr());
        triplet
    }
}
