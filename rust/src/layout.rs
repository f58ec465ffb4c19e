//! The layout of what is passed to the library: sizes and places as `ads.h` has them beside its structs.
use std::mem::{align_of, offset_of, size_of};

use crate::description::{Description, Text};
use crate::{ffi, Ending, Row};

macro_rules! layout {
    ($type:ty, $size:literal: $($field:ident $place:literal),*) => {
        const _: () = {
            assert!(size_of::<$type>() == $size && align_of::<$type>() == 8);
            $(assert!(offset_of!($type, $field) == $place);)*
        };
    };
}

layout!(Row, 104: serial 0, place 40, header 48, contents 56, bytes 64, end 72);
layout!(Row, 104: dependencies 80, offset 88, multichunk 96, good 97, ending 98);
const _: () = assert!(size_of::<Ending>() == 1);
layout!(ffi::Reading, 24: count 0, stop 8, good 16, number 17);
layout!(ffi::Written, 16: length 0, number 8);
layout!(ffi::Counted, 16: count 0, number 8);
layout!(ffi::CountedRow, 24: count 0, row 8, number 16);
layout!(ffi::Parent, 16: row 0, found 8, agree 9, number 10);
layout!(ffi::Ends, 32: first 0, second 8, third 16, number 24);
layout!(ffi::Part, 24: place 0, bytes 8, number 16);
layout!(ffi::Ancestry, 24: count 0, missing 8, number 16);
layout!(ffi::Priced, 40: length 0, header 8, chunks 16, unread 24, number 32);
layout!(Text<256>, 264: bytes 0, given 256);
layout!(Text<32>, 40: bytes 0, given 32);
layout!(Description, 504: subformat 0, generic 264, synch 267, standard 270, alternate 273, offset 311);
layout!(Description, 504: event 327, linked 330, serial 368, recorded 406, recorder 416, written 456, writer 464);
