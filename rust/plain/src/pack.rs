//! Packing: fields most significant bit first, no gaps.

/// Bits of the transaction count, of a subaddress and of a data count.
pub(crate) const HEAD_BITS: u32 = 6;
/// Bits of a byte.
pub(crate) const BYTE_BITS: u32 = 8;

/// Bytes of a packed plan with these transactions and data.
#[inline]
pub(crate) fn length(transactions: u32, data: u32) -> usize {
    let bits = HEAD_BITS + 2 * HEAD_BITS * transactions + BYTE_BITS * data;
    bits.div_ceil(BYTE_BITS) as usize
}

/// Where the next bits go.
struct Packer<'a> {
    // The packed plan, exactly as long as it must be.
    plan: &'a mut [u8],
    // Full bytes written.
    full: usize,
    // The bits behind them, lowest last; higher bits are already written.
    pending: u64,
    // How many bits are pending.
    held: u32,
}

impl Packer<'_> {
    /// Appends up to 16 bits.
    #[inline(always)]
    fn put(&mut self, bits: u32, width: u32) {
        self.pending = self.pending << width | bits as u64;
        self.held += width;
        while self.held >= BYTE_BITS {
            self.held -= BYTE_BITS;
            self.plan[self.full] = (self.pending >> self.held) as u8;
            self.full += 1;
        }
    }

    /// Appends data.
    #[inline(always)]
    fn put_data(&mut self, data: &[u8]) {
        let room = &mut self.plan[self.full..][..data.len()];
        self.full += data.len();
        shift(room, data, &mut self.pending, self.held);
    }

    /// Fills the last byte with zero bits.
    #[inline(always)]
    fn finish(mut self) {
        if self.held > 0 {
            self.put(0, BYTE_BITS - self.held);
        }
    }
}

/// Moves data to other bit places. `pending` ends in `held` bits that come
/// before the data of `from`; `to`, as long as `from`, takes those bits and
/// the data less its last `held` bits, which are then pending. Four bytes at a
/// time, then one.
#[inline(always)]
pub(crate) fn shift(to: &mut [u8], from: &[u8], pending: &mut u64, held: u32) {
    let (to_words, to_bytes) = to.as_chunks_mut();
    let (from_words, from_bytes) = from.as_chunks();
    for (to, from) in to_words.iter_mut().zip(from_words) {
        *pending = *pending << u32::BITS | u32::from_be_bytes(*from) as u64;
        *to = ((*pending >> held) as u32).to_be_bytes();
    }
    for (to, from) in to_bytes.iter_mut().zip(from_bytes) {
        *pending = *pending << BYTE_BITS | *from as u64;
        *to = (*pending >> held) as u8;
    }
}

/// Packs so many transactions into the whole of `plan`: the first register of
/// each, and its data.
#[inline]
pub(crate) fn pack<'a>(
    plan: &mut [u8],
    transactions: u32,
    list: impl Iterator<Item = (u32, &'a [u8])>,
) {
    let mut packer = Packer {
        plan,
        full: 0,
        pending: 0,
        held: 0,
    };
    packer.put(transactions, HEAD_BITS);
    for (start, data) in list {
        packer.put(start << HEAD_BITS | data.len() as u32, 2 * HEAD_BITS);
        packer.put_data(data);
    }
    packer.finish();
}
