//! MILENAGE against TS 35.208.

use reference::functions::{Outputs, Subscriber};
use reference::milenage::{opc, Milenage};
use reference::published::{self, MilenageVector};
use reference::text::read_hex;

fn hex<const N: usize>(digits: &str) -> [u8; N] {
    read_hex(digits.as_bytes()).expect("hex of this length")
}

fn milenage(v: &MilenageVector) -> Milenage {
    Milenage::new(&hex(v.k), &hex(v.opc), &hex(v.rand))
}

#[test]
fn all_twenty_sets_are_there() {
    assert_eq!(published::milenage().len(), 20);
}

#[test]
fn opc_from_op() {
    for v in published::milenage() {
        assert_eq!(opc(&hex(v.k), &hex(v.op)), hex::<16>(v.opc));
    }
}

#[test]
fn every_function_of_every_set() {
    for v in published::milenage() {
        let f = milenage(&v);
        let (sqn, amf) = (hex(v.sqn), hex(v.amf));
        assert_eq!(f.f1(&sqn, &amf), hex::<8>(v.f1));
        assert_eq!(f.f1_star(&sqn, &amf), hex::<8>(v.f1_star));
        assert_eq!(f.f2(), hex::<8>(v.f2));
        assert_eq!(f.f3(), hex::<16>(v.f3));
        assert_eq!(f.f4(), hex::<16>(v.f4));
        assert_eq!(f.f5(), hex::<6>(v.f5));
        assert_eq!(f.f5_star(), hex::<6>(v.f5_star));
    }
}

#[test]
fn set_1_gives_the_same_seven_outputs() {
    for v in published::milenage() {
        let subscriber = Subscriber {
            set: 1,
            k: hex(v.k),
            opc: hex(v.opc),
        };
        let expected = Outputs {
            mac: hex(v.f1),
            mac_s: hex(v.f1_star),
            res: hex(v.f2),
            ck: hex(v.f3),
            ik: hex(v.f4),
            ak: hex(v.f5),
            ak_s: hex(v.f5_star),
        };
        let outputs = subscriber.outputs(&hex(v.rand), &hex(v.sqn), &hex(v.amf));
        assert_eq!(outputs, Some(expected));
    }
}

#[test]
fn the_outputs_are_cut_from_the_out_blocks() {
    let v = &published::milenage()[0];
    let f = milenage(v);
    let out1 = f.out1(&hex(v.sqn), &hex(v.amf));
    assert_eq!(out1, hex(&format!("{}{}", v.f1, v.f1_star)));
    assert_eq!(f.out2()[..6], hex::<6>(v.f5));
    assert_eq!(f.out2()[8..], hex::<8>(v.f2));
    assert_eq!(f.out3(), hex::<16>(v.f3));
    assert_eq!(f.out4(), hex::<16>(v.f4));
    assert_eq!(f.out5()[..6], hex::<6>(v.f5_star));
}
