//! The byte order of a stream, and numbers in it.

/// All numbers of one stream share one of these orders.
#[derive(Clone, Copy, Debug, PartialEq, Eq)]
pub enum Order {
    Big,
    Little,
}

/// The number every chunk starts with.
pub const SYNC: u32 = 0xA1B2_C3D4;

impl Order {
    pub const fn name(self) -> &'static str {
        match self {
            Order::Big => "big",
            Order::Little => "little",
        }
    }

    pub const fn other(self) -> Order {
        match self {
            Order::Big => Order::Little,
            Order::Little => Order::Big,
        }
    }

    /// The sync word as it stands in a stream of this order.
    pub const fn sync(self) -> [u8; 4] {
        self.put_u32(SYNC)
    }

    pub const fn u32(self, bytes: [u8; 4]) -> u32 {
        match self {
            Order::Big => u32::from_be_bytes(bytes),
            Order::Little => u32::from_le_bytes(bytes),
        }
    }

    pub const fn i16(self, bytes: [u8; 2]) -> i16 {
        match self {
            Order::Big => i16::from_be_bytes(bytes),
            Order::Little => i16::from_le_bytes(bytes),
        }
    }

    pub const fn i32(self, bytes: [u8; 4]) -> i32 {
        self.u32(bytes) as i32
    }

    pub const fn i64(self, bytes: [u8; 8]) -> i64 {
        match self {
            Order::Big => i64::from_be_bytes(bytes),
            Order::Little => i64::from_le_bytes(bytes),
        }
    }

    pub const fn put_i16(self, value: i16) -> [u8; 2] {
        match self {
            Order::Big => value.to_be_bytes(),
            Order::Little => value.to_le_bytes(),
        }
    }

    pub const fn put_u32(self, value: u32) -> [u8; 4] {
        match self {
            Order::Big => value.to_be_bytes(),
            Order::Little => value.to_le_bytes(),
        }
    }

    pub const fn put_i64(self, value: i64) -> [u8; 8] {
        match self {
            Order::Big => value.to_be_bytes(),
            Order::Little => value.to_le_bytes(),
        }
    }
}
