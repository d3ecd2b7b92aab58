//! What the stand-in for the wire derive writes implementations of: a type as one little-endian number.

pub trait FromWire: Sized {
    fn from_wire(number: u128) -> Option<Self>;
}

pub trait ToWire {
    fn to_wire(&self) -> u128;
}

impl FromWire for bool {
    fn from_wire(number: u128) -> Option<Self> {
        Some(number & 1 == 1)
    }
}

impl ToWire for bool {
    fn to_wire(&self) -> u128 {
        u128::from(*self)
    }
}

macro_rules! number {
    ($($type:ty)*) => {$(
        impl FromWire for $type {
            fn from_wire(number: u128) -> Option<Self> {
                Some(number as $type)
            }
        }

        impl ToWire for $type {
            fn to_wire(&self) -> u128 {
                u128::from(*self)
            }
        }
    )*};
}

number!(u8 u16 u32);
