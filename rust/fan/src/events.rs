//! Chamber events in words.

const CHAMBER: [&str; 14] = [
    "pump fan 1 runs",
    "pump fan 3 runs",
    "shroud 2 at 100 kelvin",
    "door seal holds",
    "heater bank 4 on",
    "lamp array at half power",
    "pump fan 3 stopped",
    "coolant flow falls",
    "shroud 2 warms up",
    "pressure 3 millipascal",
    "valve 7 shut",
    "heater bank 4 off",
    "lamp array dark",
    "door seal warm",
];

/// The event of this place, from 0 on. No two are equal.
pub fn event(place: usize) -> String {
    let name = CHAMBER[place % CHAMBER.len()];
    format!("{}: {name}", place + 1)
}
