//! The writer: the one text of an image.

use super::reader::SPAN;
use super::record::Fields;
use super::rules::HexRules;

pub fn text_of<R: HexRules>(image: &[u8]) -> Vec<u8> {
    let mut text = vec![];
    for (upper, span) in image.chunks(SPAN).enumerate() {
        if R::upper_is_written(upper) {
            let data = (upper as u16).to_be_bytes().to_vec();
            text.extend(R::written(4, 0, data));
        }
        for (index, data) in span.chunks(R::BYTES_A_RECORD).enumerate() {
            let address = index * R::BYTES_A_RECORD;
            text.extend(R::written(0, address as u16, data.to_vec()));
        }
    }
    text.extend(R::written(1, 0, vec![]));
    text
}

/// It follows from the sizes: every image of so many bytes has a text of the
/// same length.
pub fn text_length<R: HexRules>(image_bytes: usize) -> usize {
    let record = |data: usize| 12 + 2 * data;
    let spans = image_bytes.div_ceil(SPAN);
    let uppers = (0..spans).filter(|&upper| R::upper_is_written(upper));
    let whole = image_bytes / R::BYTES_A_RECORD * record(R::BYTES_A_RECORD);
    let rest = match image_bytes % R::BYTES_A_RECORD {
        0 => 0,
        rest => record(rest),
    };
    uppers.count() * record(2) + whole + rest + record(0)
}

pub fn line(kind: u8, address: u16, data: Vec<u8>) -> Vec<u8> {
    let fields = Fields {
        address,
        kind,
        data,
    };
    fields.line()
}
