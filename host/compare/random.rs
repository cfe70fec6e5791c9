//! Numbers from a fixed seed, and messages and frames made of them.

/// An update to be written.
pub struct Update {
    offset: u32,
    symbol: Vec<u8>,
    auction: u8,
    reference: u64,
    buy: u32,
    sell: u32,
    indicative: u64,
    auction_only: u64,
    condition: u8,
    bid: u64,
    offer: u64,
}

impl Update {
    /// Passes its fields to a function that writes them.
    #[inline(always)]
    pub fn add(
        &self,
        buffer: &mut [u8],
        add: impl Fn(&mut [u8], u32, &[u8], u8, u64, u32, u32, u64, u64, u8, u64, u64) -> u32,
    ) -> u32 {
        add(
            buffer,
            self.offset,
            &self.symbol,
            self.auction,
            self.reference,
            self.buy,
            self.sell,
            self.indicative,
            self.auction_only,
            self.condition,
            self.bid,
            self.offer,
        )
    }
}

/// A summary to be written.
pub struct Summary {
    offset: u32,
    symbol: Vec<u8>,
    auction: u8,
    price: u64,
    contracts: u32,
}

impl Summary {
    /// Passes its fields to a function that writes them.
    #[inline(always)]
    pub fn add(&self, buffer: &mut [u8], add: impl Fn(&mut [u8], u32, &[u8], u8, u64, u32) -> u32) -> u32 {
        add(buffer, self.offset, &self.symbol, self.auction, self.price, self.contracts)
    }
}

pub struct Random(u64);

impl Random {
    pub fn new(seed: u64) -> Random {
        Random(seed)
    }

    pub fn number(&mut self) -> u64 {
        self.0 = self.0.wrapping_add(0x9E37_79B9_7F4A_7C15);
        let mut z = self.0;
        z = (z ^ (z >> 30)).wrapping_mul(0xBF58_476D_1CE4_E5B9);
        z = (z ^ (z >> 27)).wrapping_mul(0x94D0_49BB_1331_11EB);
        z ^ (z >> 31)
    }

    /// A number below `n`.
    pub fn below(&mut self, n: usize) -> usize {
        (self.number() % n as u64) as usize
    }

    /// True once in `n` times.
    pub fn one_in(&mut self, n: usize) -> bool {
        self.below(n) == 0
    }

    pub fn byte(&mut self) -> u8 {
        self.number() as u8
    }

    /// A number of any size: small ones are as likely as large ones.
    pub fn sized(&mut self) -> u64 {
        let shift = self.below(64);
        self.number() >> shift
    }

    pub fn bytes(&mut self, n: usize) -> Vec<u8> {
        (0..n).map(|_| self.byte()).collect()
    }

    pub fn symbol(&mut self) -> [u8; 8] {
        std::array::from_fn(|_| b' ' + self.below(95) as u8)
    }

    pub fn auction(&mut self) -> u8 {
        b"GOHV"[self.below(4)]
    }

    pub fn update(&mut self, symbol: &[u8], auction: u8) -> Update {
        Update {
            offset: self.sized() as u32,
            symbol: symbol.to_vec(),
            auction,
            reference: self.sized(),
            buy: self.sized() as u32,
            sell: self.sized() as u32,
            indicative: self.sized(),
            auction_only: self.sized(),
            condition: self.byte(),
            bid: self.sized(),
            offer: self.sized(),
        }
    }

    pub fn summary(&mut self, symbol: &[u8], auction: u8) -> Summary {
        Summary {
            offset: self.sized() as u32,
            symbol: symbol.to_vec(),
            auction,
            price: self.sized(),
            contracts: self.sized() as u32,
        }
    }

    /// A message: mostly known and fit, sometimes grown, of an unknown type, short, unfit or without sense.
    fn message(&mut self) -> Vec<u8> {
        let (kind, layout) = if self.one_in(2) { (0xD1, 64) } else { (0x96, 27) };
        let mut length = layout;
        if self.one_in(6) {
            length += self.below(256 - layout);
        }
        if self.one_in(30) {
            length = 2 + self.below(layout - 2);
        }
        let mut m = self.bytes(length);
        m[0] = length as u8;
        m[1] = kind;
        if length >= 15 {
            let symbol = self.symbol();
            m[6..14].copy_from_slice(&symbol);
            m[14] = self.auction();
            match self.below(60) {
                0 => m[6 + self.below(8)] = self.byte(),
                1 => m[6 + self.below(8)] = [0x1F, 0x20, 0x7E, 0x7F][self.below(4)],
                2 => m[14] = self.byte(),
                3 => m[14] = b"FGHINOPUVW"[self.below(10)],
                _ => {}
            }
        }
        if self.one_in(8) {
            m[1] = self.byte();
        }
        if self.one_in(60) {
            m[0] = self.byte();
        }
        m
    }

    /// A frame: mostly sound, sometimes with a wrong length or count, flipped bytes, a part cut off or added.
    pub fn frame(&mut self) -> Vec<u8> {
        if self.one_in(20) {
            let size = self.below(100);
            return self.bytes(size);
        }
        let count = if self.one_in(10) { self.below(256) } else { self.below(12) };
        let mut frame = self.bytes(8);
        for _ in 0..count {
            frame.extend(self.message());
        }
        if self.one_in(12) {
            let extra = self.below(70);
            frame.extend(self.bytes(extra));
        }
        if self.one_in(12) {
            let size = self.below(frame.len() + 1);
            frame.truncate(size);
        }
        let size = frame.len() as u16;
        if frame.len() >= 8 {
            frame[..2].copy_from_slice(&size.to_le_bytes());
            frame[2] = count as u8;
            match self.below(40) {
                0 => frame[self.below(2)] = self.byte(),
                1 => frame[2] = self.byte(),
                2 => frame[2] = (count + 1) as u8,
                3 => frame[2] = count.saturating_sub(1) as u8,
                _ => {}
            }
            while self.one_in(8) {
                let at = self.below(frame.len());
                frame[at] ^= 1 << self.below(8);
            }
        }
        frame
    }
}
