//! The guests that a boot line names, by their words: docs/SCRIPTS.md says what they do.

const SELF_LOOP: u32 = 0x0000_006f;
const DATA: usize = 0x1000 / 4;

/// Sets up a card or a disk (x5), with a queue that it chooses by x6 or x0 and whose size is x6 or x7, and notifies it.
#[rustfmt::skip]
const BEACON: [u32; 23] = [
    0x100012b7, 0x00100313, 0x0662a823, 0x00300393, 0x0672a823, 0x0262a223, 0x0262a023, 0x00b00393,
    0x0672a823, 0x0702a403, 0x0262a823, 0x0262ac23, 0x800013b7, 0x0872a023, 0x04038393, 0x0872a823,
    0x04038393, 0x0a72a023, 0x0462a223, 0x00f00393, 0x0672a823, 0x0462a823, SELF_LOOP,
];
#[rustfmt::skip]
const DISK: [u32; 24] = [
    0x100022b7, 0x00100313, 0x0662a823, 0x00300393, 0x0672a823, 0x0262a223, 0x0262a023, 0x00b00393,
    0x0672a823, 0x0702a403, 0x0202a823, 0x00400393, 0x0272ac23, 0x800013b7, 0x0872a023, 0x04038393,
    0x0872a823, 0x04038393, 0x0a72a023, 0x0462a223, 0x00f00393, 0x0672a823, 0x0402a823, SELF_LOOP,
];

/// The words of a boot line's guest in a memory of so many pages; `None` where the line is bad.
pub fn words(guest: &[&str], pages: u64) -> Option<Vec<u32>> {
    match guest {
        ["idle"] => Some(vec![SELF_LOOP]),
        ["beacon"] if pages >= 2 => Some(beacon()),
        ["disk", sector, byte] if pages >= 2 => {
            let is_byte = byte.len() == 2 && byte.bytes().all(is_digit);
            let byte = u32::from_str_radix(byte, 16).ok().filter(|_| is_byte)?;
            Some(disk(crate::nodes::number(sector)?, byte))
        }
        ["words", words @ ..] if !words.is_empty() && words.len() as u64 <= 1024 * pages => {
            words.iter().map(|word| word_of(word)).collect()
        }
        _ => None,
    }
}

fn is_digit(byte: u8) -> bool {
    matches!(byte, b'0'..=b'9' | b'a'..=b'f')
}

fn word_of(text: &str) -> Option<u32> {
    let is_word = text.len() == 8 && text.bytes().all(is_digit);
    u32::from_str_radix(text, 16).ok().filter(|_| is_word)
}

fn beacon() -> Vec<u32> {
    let mut words = BEACON.to_vec();
    words.resize(DATA + 0x140 / 4, 0);
    // A descriptor of 26 bytes at 0x80001100: 12 of header, and the frame.
    words[DATA..DATA + 3].copy_from_slice(&[0x8000_1100, 0, 26]);
    words[DATA + 0x40 / 4] = 1 << 16;
    let frame = [2, 0, 0, 0, 1, 1, 2, 0, 0, 0, 0, 1, 0x88, 0xb5, 0, 0];
    for (word, bytes) in words[DATA + 0x10c / 4..]
        .iter_mut()
        .zip(frame.chunks_exact(4))
    {
        *word = u32::from_le_bytes(bytes.try_into().expect("4 bytes"));
    }
    words
}

fn disk(sector: u64, byte: u32) -> Vec<u32> {
    let mut words = DISK.to_vec();
    words.resize(DATA + 0x400 / 4, 0);
    let descriptors = [
        [0x8000_1100, 0, 16, 1 | 1 << 16],
        [0x8000_1200, 0, 512, 1 | 2 << 16],
        [0x8000_1110, 0, 1, 2],
    ];
    words[DATA..DATA + 12].copy_from_slice(&descriptors.concat());
    words[DATA + 0x40 / 4] = 1 << 16;
    let request = [1, 0, sector as u32, (sector >> 32) as u32, 0xff];
    words[DATA + 0x100 / 4..][..5].copy_from_slice(&request);
    words[DATA + 0x200 / 4..][..128].fill(byte * 0x0101_0101);
    words
}
