//! What `function_vectors` prints: for each line `SET K OPC RAND SQN AMF` the
//! outputs `MAC MACS RES CK IK AK AKS`.

use crate::functions::{Outputs, Subscriber};
use crate::text::{self, fields, read_hex, write_hex, BAD_LINE};

/// The answer to a well-formed line of an unknown set.
pub const REFUSED: &[u8] = b"refused 1";

pub fn answers(input: &[u8]) -> Vec<u8> {
    text::answers(input, answer)
}

/// The answer to one line, without its newline.
pub fn answer(line: &[u8]) -> Vec<u8> {
    well_formed(line).unwrap_or_else(|| BAD_LINE.to_vec())
}

/// All fields are read before the set is judged, so that a damaged line of an
/// unknown set is a bad line.
fn well_formed(line: &[u8]) -> Option<Vec<u8>> {
    let [set, k, opc, rand, sqn, amf] = fields(line)?;
    let subscriber = Subscriber {
        set: read_set(set)?,
        k: read_hex(k)?,
        opc: read_hex(opc)?,
    };
    let outputs = subscriber.outputs(&read_hex(rand)?, &read_hex(sqn)?, &read_hex(amf)?);
    Some(match outputs {
        Some(outputs) => write_outputs(&outputs),
        None => REFUSED.to_vec(),
    })
}

/// One decimal digit.
fn read_set(field: &[u8]) -> Option<u8> {
    match field {
        [digit @ b'0'..=b'9'] => Some(digit - b'0'),
        _ => None,
    }
}

fn write_outputs(outputs: &Outputs) -> Vec<u8> {
    let fields: [&[u8]; 7] = [
        &outputs.mac,
        &outputs.mac_s,
        &outputs.res,
        &outputs.ck,
        &outputs.ik,
        &outputs.ak,
        &outputs.ak_s,
    ];
    fields.map(write_hex).join(&b' ')
}
