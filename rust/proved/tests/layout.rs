//! The records of this crate lie in memory as tests/layout.txt says, and so as
//! the C header's do, whose program (tests/c/layout.c) must print the same file.
//! That the library reads and writes them at these places is shown by the tests
//! beside this one, `written` and `read`.

use proved::{Addresses, Channel, Fields, Flow, Limits, Lone, Node, Phase, Prefix, Pulse};
use proved::{Reading, Said, Settings, Timers, Window, Writing};
use std::mem::{align_of, offset_of, size_of};

const TABLE: &str = include_str!("../../../tests/layout.txt");

/// The size of what this looks at; the value itself is not needed.
fn size<Record, Field>(_: fn(&Record) -> &Field) -> usize {
    size_of::<Field>()
}

macro_rules! lines {
    ($($record:ident: $($field:ident)*;)*) => {{
        let mut lines = Vec::new();
        $(
            let name = stringify!($record);
            let (whole, align) = (size_of::<$record>(), align_of::<$record>());
            lines.push(format!("{name} {whole} {align}"));
            $(
                let field = stringify!($field);
                let place = offset_of!($record, $field);
                let octets = size(|record: &$record| &record.$field);
                lines.push(format!("{name}.{field} {place} {octets}"));
            )*
        )*
        lines
    }};
}

#[test]
fn records_lie_as_the_table_says() {
    let lines = lines! {
        Node: address protocol;
        Prefix: length octets;
        Addresses: channel remote direction remote_prefix own_prefix;
        Limits: window slots payload segments timeout closing retries interval flow spare lead;
        Settings: addresses limits;
        Lone: state timer tries;
        Phase: state reason kept accepted control;
        Flow: packet number stated last recorded;
        Pulse: left beat flow;
        Window: start place behind ahead flight way;
        Timers: closing left tries;
        Channel: addresses limits phase pulse window timers marks acked;
        Said: number reason length confirmed index;
        Fields: destination protocol version secondary flags kind channel number reserved source;
        Reading: answer fields prefix start length;
        Writing: answer length;
    };
    let expected: Vec<&str> = TABLE.lines().collect();
    assert_eq!(lines, expected);
}
