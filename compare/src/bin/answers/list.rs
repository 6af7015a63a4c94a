//! The list as it is written: each call is put to the original, and its frame and answer become a line.

use compare::call::Call;
use compare::images;
use compare::kind::Kind;
use compare::original::{self, Cartridge};

pub struct List {
    kind: Kind,
    cart: Cartridge,
    lines: String,
}

impl List {
    /// A list that begins with a fresh cartridge of the kind.
    pub fn open(kind: Kind) -> Self {
        let image = images::of_kind(kind);
        let cart = original::open(&image).expect("an image of an allowed length");
        assert_eq!(original::kind(&cart), kind);
        let lines = format!("0B{kind:02X}{:08X} 00\n", image.len());
        Self { kind, cart, lines }
    }

    pub fn kind(&self) -> Kind {
        self.kind
    }

    /// Puts each call, but for those outside the domain.
    pub fn put(&mut self, calls: impl IntoIterator<Item = Call>) {
        for call in calls {
            if !call.outside(self.kind, &original::chip_state(&self.cart)) {
                self.lines += &format!("{} {}\n", call.frame(), call.answer(&mut self.cart));
            }
        }
    }

    pub fn into_lines(self) -> String {
        self.lines
    }
}
