//! Byte writes and reads where addresses wrap.

use crate::list::List;
use compare::call::Call;

const ADDRESSES: [u32; 14] =
    [0, 1, 0x1FFF, 0x2000, 0x5555, 0x7FFF, 0x8000, 0xFFFF, 0x1_0000, 0x1_FFFF, 0x0E00_0003, 0x0E00_8004, 0x8000_0005, u32::MAX];

pub fn addresses(list: &mut List) {
    list.put([Call::ChipState, Call::TakeFlag, Call::Export]);
    list.put(ADDRESSES.map(Call::Read));
    for (address, value) in ADDRESSES.into_iter().zip(0x60..) {
        list.put([Call::Write(address, value), Call::Read(address)]);
    }
    list.put(ADDRESSES.map(Call::Read));
}
