//! What stands for the kit's `byteorder` where a crate's text is compiled as plain Rust.

pub trait ByteOrder {
    fn read_u16(bytes: &[u8]) -> u16;
    fn read_u32(bytes: &[u8]) -> u32;
    fn read_u64(bytes: &[u8]) -> u64;
    fn read_i16(bytes: &[u8]) -> i16;
    fn read_i32(bytes: &[u8]) -> i32;
    fn write_u16(bytes: &mut [u8], n: u16);
    fn write_u32(bytes: &mut [u8], n: u32);
    fn write_u64(bytes: &mut [u8], n: u64);
}

pub enum LittleEndian {}

macro_rules! little {
    ($(read $read:ident $n:ty;)* $(write $write:ident $m:ty;)*) => {
        impl ByteOrder for LittleEndian {
            $(fn $read(bytes: &[u8]) -> $n {
                <$n>::from_le_bytes(bytes[..size_of::<$n>()].try_into().unwrap())
            })*
            $(fn $write(bytes: &mut [u8], n: $m) {
                bytes[..size_of::<$m>()].copy_from_slice(&n.to_le_bytes())
            })*
        }
    };
}

little! {
    read read_u16 u16;
    read read_u32 u32;
    read read_u64 u64;
    read read_i16 i16;
    read read_i32 i32;
    write write_u16 u16;
    write write_u32 u32;
    write write_u64 u64;
}
