//! Where stations stand in the pictures, what they are called and where labels of belts
//! have room: nothing else in them is by hand.

use crate::floor::Layout;
use crate::points::Point;

const ABOVE: Point = (0.0, -24.0);
const BELOW: Point = (0.0, 33.0);

pub const TWO_DOCKS: Layout = Layout {
    stations: &[
        ((90.0, 135.0), "yard gate", (-50.0, 4.0)),
        ((240.0, 45.0), "dock A", ABOVE),
        ((240.0, 225.0), "dock B", BELOW),
        ((380.0, 105.0), "merge", (-2.0, -25.0)),
        ((545.0, 105.0), "sorter", (2.0, -24.0)),
        ((662.0, 45.0), "packing west", ABOVE),
        ((662.0, 225.0), "packing east", BELOW),
        ((771.0, 135.0), "dispatch", (50.0, 4.0)),
    ],
    places: &[
        (0.0, (-38.0, -24.0)),
        (0.0, (-38.0, 24.0)),
        (0.0, (34.0, -22.0)),
        (0.0, (48.0, 12.0)),
        (0.0, (0.0, 16.0)),
        (-22.0, (0.0, -22.0)),
        (22.0, (0.0, 21.0)),
        (0.0, (-28.0, -22.0)),
        (0.0, (-50.0, 10.0)),
        (0.0, (45.0, -20.0)),
        (0.0, (48.0, 22.0)),
    ],
    tote: 0.05,
};

pub const CROSS: Layout = Layout {
    stations: &[
        ((68.0, 165.0), "dock", (-38.0, 4.0)),
        ((207.0, 95.0), "upper line", ABOVE),
        ((207.0, 235.0), "lower line", BELOW),
        ((346.0, 165.0), "packing", (46.0, 4.0)),
    ],
    places: &[
        (0.0, (-32.0, -24.0)),
        (0.0, (-32.0, 24.0)),
        (0.0, (54.0, 0.0)),
        (0.0, (32.0, -24.0)),
        (0.0, (32.0, 24.0)),
    ],
    tote: 0.2,
};

pub const LINE: Layout = Layout {
    stations: &[
        ((35.0, 165.0), "", ABOVE),
        ((205.0, 165.0), "", ABOVE),
        ((375.0, 165.0), "", ABOVE),
    ],
    places: &[(0.0, (0.0, 40.0)), (0.0, (0.0, 40.0))],
    tote: 0.05,
};

pub const LEVELS: Layout = Layout {
    stations: &[
        ((40.0, 55.0), "dock", ABOVE),
        ((215.0, 55.0), "lift", ABOVE),
        ((390.0, 55.0), "aisle west", ABOVE),
        ((630.0, 55.0), "aisle east", ABOVE),
        ((805.0, 55.0), "packing", ABOVE),
        ((630.0, 185.0), "returns", BELOW),
        ((390.0, 185.0), "shelves", BELOW),
    ],
    places: &[
        (0.0, (0.0, -28.0)),
        (0.0, (0.0, -28.0)),
        (0.0, (0.0, -28.0)),
        (0.0, (0.0, -28.0)),
        (0.0, (54.0, 0.0)),
        (0.0, (-56.0, 0.0)),
    ],
    tote: 0.05,
};
