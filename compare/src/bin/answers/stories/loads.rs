//! Loads around every size, each behind a chip record with large 0.

use crate::list::List;
use compare::call::Call;
use compare::files::LENGTHS;
use compare::kind::is_eeprom;

pub fn around_sizes(list: &mut List) {
    list.put([Call::Write(0, 0x12)]);
    for (length, seed) in LENGTHS.into_iter().zip(0x21..) {
        if is_eeprom(list.kind()) {
            list.put([Call::Restore([0; 18])]);
        }
        list.put([Call::Load { length, seed }, Call::Export]);
        if is_eeprom(list.kind()) {
            list.put([Call::ChipState]);
        }
    }
}
