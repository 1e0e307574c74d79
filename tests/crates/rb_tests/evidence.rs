//! Whose a connection is, by tables that Linux 6.18 showed of listeners of uid 0 and clients whose uids were known.
use rb_address::{Host, Peer};
use rb_evidence::{Lines, Sight};
use std::alloc::{AllocError, Global};
use std::io;
use std::io::Read;
use std::process::Abort;
use std::test::Fail;

/// The head of /proc/net/tcp.
const HEAD: &str =
    "  sl  local_address rem_address   st tx_queue rx_queue tr tm->when retrnsmt   uid  timeout inode                                                     ";

/// The head of /proc/net/tcp6.
const HEAD6: &str =
    "  sl  local_address                         remote_address                        st tx_queue rx_queue tr tm->when retrnsmt   uid  timeout inode";

/// A listener, and four clients of it.
#[derive(Clone, Copy)]
pub(crate) struct Door {
    /// The lines of its table that are of them and of it.
    lines: &'static [&'static str],
    /// The ports of the listener and of the clients: the first is connected, the second has closed, the third has shut
    /// down its end, and the fourth is connected and not accepted yet.
    pub(crate) port: u16,
    pub(crate) clients: [u16; 4],
    /// Of all clients.
    uid: u32,
}

/// At 127.0.0.1, with clients of uid 0.
const AT_31111: Door = Door {
    lines: &[
        "   1: 0100007F:7987 00000000:0000 0A 00000000:00000001 00:00000000 00000000     0        0 483761 2 000000006a75755b 100 0 0 10 0                    ",
        "   2: 0100007F:7987 0100007F:A458 08 00000000:00000001 00:00000000 00000000     0        0 483774 1 000000004354ee55 21 4 0 10 -1                    ",
        "   3: 0100007F:7987 0100007F:A444 01 00000000:00000000 00:00000000 00000000     0        0 483765 1 000000007754e53f 21 0 0 10 -1                    ",
        "   4: 0100007F:A444 0100007F:7987 01 00000000:00000000 00:00000000 00000000     0        0 480832 2 00000000cf384220 21 0 0 10 -1                    ",
        "   5: 0100007F:A44A 0100007F:7987 05 00000000:00000000 03:0000175E 00000000     0        0 0 3 000000000313faff                                      ",
        "   6: 0100007F:A458 0100007F:7987 05 00000000:00000000 00:00000000 00000000     0        0 483773 2 000000002b55d40c 20 0 0 11 -1                    ",
        "   7: 0100007F:A45E 0100007F:7987 01 00000000:00000000 00:00000000 00000000     0        0 481875 2 000000003e77feb2 21 0 0 10 -1                    ",
        "   8: 0100007F:7987 0100007F:A45E 01 00000000:00000000 00:00000000 00000000     0        0 0 1 000000008519b337 21 0 0 10 -1                         ",
        "   9: 0100007F:7987 0100007F:A44A 08 00000000:00000001 00:00000000 00000000     0        0 483769 1 00000000a4f3f425 21 4 0 10 -1                    ",
    ],
    port: 31_111,
    clients: [42_052, 42_058, 42_072, 42_078],
    uid: 0,
};

/// At 127.0.0.1, with clients of uid 65534.
pub(crate) const AT_31112: Door = Door {
    lines: &[
        "   1: 0100007F:7988 00000000:0000 0A 00000000:00000001 00:00000000 00000000     0        0 480838 2 00000000a4f3f425 100 0 0 10 0                    ",
        "   2: 0100007F:DCFE 0100007F:7988 01 00000000:00000000 00:00000000 00000000 65534        0 481882 2 00000000de433d49 20 0 0 10 -1                    ",
        "   3: 0100007F:DD06 0100007F:7988 05 00000000:00000000 03:00001760 00000000     0        0 0 3 000000001dd51283                                      ",
        "   4: 0100007F:DD08 0100007F:7988 05 00000000:00000000 00:00000000 00000000 65534        0 483792 2 00000000e5f901c8 20 0 0 11 -1                    ",
        "   5: 0100007F:DD14 0100007F:7988 01 00000000:00000000 00:00000000 00000000 65534        0 483801 2 00000000859f6489 20 0 0 10 -1                    ",
        "   6: 0100007F:7988 0100007F:DD06 08 00000000:00000001 00:00000000 00000000     0        0 480866 1 00000000b4ec63b9 20 4 0 10 -1                    ",
        "   7: 0100007F:7988 0100007F:DD14 01 00000000:00000000 00:00000000 00000000     0        0 0 1 000000004a7e1525 20 0 0 10 -1                         ",
        "   8: 0100007F:7988 0100007F:DD08 08 00000000:00000001 00:00000000 00000000     0        0 480880 1 00000000736bbafa 20 4 0 10 -1                    ",
        "  12: 0100007F:7988 0100007F:DCFE 01 00000000:00000000 00:00000000 00000000     0        0 480846 1 00000000387e9f90 20 0 0 10 -1                    ",
    ],
    port: 31_112,
    clients: [56_574, 56_582, 56_584, 56_596],
    uid: 65_534,
};

/// At ::1, with clients of uid 0.
const AT_31113: Door = Door {
    lines: &[
        "   0: 00000000000000000000000001000000:7989 00000000000000000000000000000000:0000 0A 00000000:00000001 00:00000000 00000000     0        0 480888 2 0000000030ef7339 100 0 0 10 0",
        "   1: 00000000000000000000000001000000:978C 00000000000000000000000001000000:7989 01 00000000:00000000 00:00000000 00000000     0        0 481899 2 00000000224133ca 20 0 0 10 -1",
        "   2: 00000000000000000000000001000000:9794 00000000000000000000000001000000:7989 05 00000000:00000000 03:0000175D 00000000     0        0 0 3 000000005650a00d",
        "   3: 00000000000000000000000001000000:9798 00000000000000000000000001000000:7989 05 00000000:00000000 00:00000000 00000000     0        0 483207 2 00000000dd495ad2 20 0 0 11 -1",
        "   4: 00000000000000000000000001000000:979E 00000000000000000000000001000000:7989 01 00000000:00000000 00:00000000 00000000     0        0 483216 2 0000000018a3cb3f 20 0 0 10 -1",
        "   5: 00000000000000000000000001000000:7989 00000000000000000000000001000000:9794 08 00000000:00000001 00:00000000 00000000     0        0 483806 1 0000000094e724cf 20 4 0 10 -1",
        "   6: 00000000000000000000000001000000:7989 00000000000000000000000001000000:978C 01 00000000:00000000 00:00000000 00000000     0        0 480892 1 00000000b12b95fa 20 0 0 10 -1",
        "   7: 00000000000000000000000001000000:7989 00000000000000000000000001000000:979E 01 00000000:00000000 00:00000000 00000000     0        0 0 1 0000000072c4ae4b 20 0 0 10 -1",
        "   8: 00000000000000000000000001000000:7989 00000000000000000000000001000000:9798 08 00000000:00000001 00:00000000 00000000     0        0 483817 1 000000003274f6c4 20 4 0 10 -1",
    ],
    port: 31_113,
    clients: [38_796, 38_804, 38_808, 38_814],
    uid: 0,
};

/// At ::1, with clients of uid 65534.
const AT_31114: Door = Door {
    lines: &[
        "   0: 00000000000000000000000001000000:798A 00000000000000000000000000000000:0000 0A 00000000:00000001 00:00000000 00000000     0        0 481901 2 00000000b12b95fa 100 0 0 10 0",
        "   1: 00000000000000000000000001000000:798A 00000000000000000000000001000000:9B7C 01 00000000:00000000 00:00000000 00000000     0        0 483226 1 000000003829d0fa 20 0 0 10 -1",
        "   5: 00000000000000000000000001000000:798A 00000000000000000000000001000000:9B9C 08 00000000:00000001 00:00000000 00000000     0        0 483831 1 0000000094e724cf 20 4 0 10 -1",
        "   6: 00000000000000000000000001000000:798A 00000000000000000000000001000000:9B8C 08 00000000:00000001 00:00000000 00000000     0        0 483238 1 00000000ee18c2be 20 4 0 10 -1",
        "   7: 00000000000000000000000001000000:798A 00000000000000000000000001000000:9B9E 01 00000000:00000000 00:00000000 00000000     0        0 0 1 000000008f02b071 20 0 0 10 -1",
        "   8: 00000000000000000000000001000000:9B7C 00000000000000000000000001000000:798A 01 00000000:00000000 00:00000000 00000000 65534        0 483225 2 0000000018a3cb3f 20 0 0 10 -1",
        "   9: 00000000000000000000000001000000:9B8C 00000000000000000000000001000000:798A 05 00000000:00000000 03:00001760 00000000     0        0 0 3 00000000a27b55f1",
        "  10: 00000000000000000000000001000000:9B9C 00000000000000000000000001000000:798A 05 00000000:00000000 00:00000000 00000000 65534        0 483830 2 00000000096809dd 20 0 0 11 -1",
        "  11: 00000000000000000000000001000000:9B9E 00000000000000000000000001000000:798A 01 00000000:00000000 00:00000000 00000000 65534        0 480953 2 000000008b9b4bb2 20 0 0 10 -1",
    ],
    port: 31_114,
    clients: [39_804, 39_820, 39_836, 39_838],
    uid: 65_534,
};

/// At ::, with clients at 127.0.0.1.
const AT_31115: Door = Door {
    lines: &[
        "   7: 0100007F:9F2C 0100007F:798B 01 00000000:00000000 00:00000000 00000000 65534        0 480965 2 00000000a4f3f425 20 0 0 10 -1                    ",
        "   8: 0100007F:9F34 0100007F:798B 05 00000000:00000000 03:0000175F 00000000     0        0 0 3 000000004911c79a                                      ",
        "   9: 0100007F:9F3E 0100007F:798B 05 00000000:00000000 00:00000000 00000000 65534        0 483859 2 00000000859f6489 20 0 0 11 -1                    ",
        "  10: 0100007F:9F48 0100007F:798B 01 00000000:00000000 00:00000000 00000000 65534        0 484434 2 00000000c6f37faa 20 0 0 10 -1                    ",
    ],
    port: 31_115,
    clients: [40_748, 40_756, 40_766, 40_776],
    uid: 65_534,
};

/// Of the same what /proc/net/tcp6 had: our own ends.
const AT_31115_TCP6: &[&str] = &[
    "   0: 00000000000000000000000000000000:798B 00000000000000000000000000000000:0000 0A 00000000:00000001 00:00000000 00000000     0        0 483844 2 0000000094e724cf 100 0 0 10 0",
    "   1: 0000000000000000FFFF00000100007F:798B 0000000000000000FFFF00000100007F:9F3E 08 00000000:00000001 00:00000000 00000000     0        0 483860 1 00000000ff229c60 20 4 0 10 -1",
    "   5: 0000000000000000FFFF00000100007F:798B 0000000000000000FFFF00000100007F:9F34 08 00000000:00000001 00:00000000 00000000     0        0 483851 1 00000000096809dd 20 4 0 10 -1",
    "   6: 0000000000000000FFFF00000100007F:798B 0000000000000000FFFF00000100007F:9F2C 01 00000000:00000000 00:00000000 00000000     0        0 480966 1 0000000023bcf8ef 20 0 0 10 -1",
    "   7: 0000000000000000FFFF00000100007F:798B 0000000000000000FFFF00000100007F:9F48 01 00000000:00000000 00:00000000 00000000     0        0 0 1 000000003829d0fa 20 0 0 10 -1",
];

/// At ::, with clients at ::1.
const AT_31116: Door = Door {
    lines: &[
        "   0: 00000000000000000000000000000000:798C 00000000000000000000000000000000:0000 0A 00000000:00000001 00:00000000 00000000     0        0 484435 2 000000003829d0fa 100 0 0 10 0",
        "   1: 00000000000000000000000001000000:798C 00000000000000000000000001000000:C1EC 01 00000000:00000000 00:00000000 00000000     0        0 0 1 000000008f02b071 20 0 0 10 -1",
        "   5: 00000000000000000000000001000000:798C 00000000000000000000000001000000:C1DC 08 00000000:00000001 00:00000000 00000000     0        0 484453 1 0000000000ad74b2 20 4 0 10 -1",
        "   9: 00000000000000000000000001000000:798C 00000000000000000000000001000000:C1BC 01 00000000:00000000 00:00000000 00000000     0        0 484445 1 0000000011647eb3 20 0 0 10 -1",
        "  10: 00000000000000000000000001000000:C1BC 00000000000000000000000001000000:798C 01 00000000:00000000 00:00000000 00000000 65534        0 481916 2 00000000224133ca 20 0 0 10 -1",
        "  11: 00000000000000000000000001000000:C1CC 00000000000000000000000001000000:798C 05 00000000:00000000 03:0000175C 00000000     0        0 0 3 00000000032225d3",
        "  12: 00000000000000000000000001000000:C1DC 00000000000000000000000001000000:798C 05 00000000:00000000 00:00000000 00000000 65534        0 481930 2 000000001ed5ddd1 20 0 0 11 -1",
        "  13: 00000000000000000000000001000000:C1EC 00000000000000000000000001000000:798C 01 00000000:00000000 00:00000000 00000000 65534        0 480996 2 0000000023bcf8ef 20 0 0 10 -1",
        "  14: 00000000000000000000000001000000:798C 00000000000000000000000001000000:C1CC 08 00000000:00000001 00:00000000 00000000     0        0 484449 1 0000000050865786 20 4 0 10 -1",
    ],
    port: 31_116,
    clients: [49_596, 49_612, 49_628, 49_644],
    uid: 65_534,
};

/// A client of uid 65534 whose socket is of IPv6, connected to ::ffff:127.0.0.1: the ends of a listener at 127.0.0.1.
const OVER_IPV6: &[&str] = &[
    "   1: 0100007F:7991 00000000:0000 0A 00000000:00000000 00:00000000 00000000     0        0 659097 1 000000002b55d40c 100 0 0 10 0                    ",
    "   3: 0100007F:7991 0100007F:D882 01 00000000:00000000 00:00000000 00000000     0        0 659105 1 00000000b53b1a30 20 0 0 10 -1                    ",
];

/// Its own end is in /proc/net/tcp6.
const OVER_IPV6_TCP6: &[&str] = &[
    "   0: 0000000000000000FFFF00000100007F:D882 0000000000000000FFFF00000100007F:7991 01 00000000:00000000 00:00000000 00000000 65534        0 657318 2 0000000011e38e0c 20 0 0 10 -1",
];

/// A client of uid 0 has closed first.
const CLOSED: &[&str] = &[
    "   4: 0100007F:7993 0100007F:7992 06 00000000:00000000 03:0000176A 00000000     0        0 0 3 000000001fc9166e                                      ",
];

/// Another of the same port.
const AGAIN: &[&str] = &[
    "   4: 0100007F:7993 0100007F:7992 01 00000000:00000000 00:00000000 00000000     0        0 657322 2 00000000d80beef8 20 0 0 10 -1                    ",
    "   5: 0100007F:7992 0100007F:7993 01 00000000:00000000 00:00000000 00000000     0        0 657323 1 000000004e7a58aa 20 0 0 10 -1                    ",
];

/// A client of uid 0 at 127.0.0.2.
const FROM_ANOTHER: &[&str] = &[
    "   5: 0200007F:8C6D 0100007F:7992 01 00000000:00000000 00:00000000 00000000     0        0 657324 2 000000004e7a58aa 20 0 0 10 -1                    ",
    "   7: 0100007F:7992 0200007F:8C6D 01 00000000:00000000 00:00000000 00000000     0        0 657325 1 00000000d80beef8 20 0 0 10 -1                    ",
];

/// The same once its socket was given to uid 1234 by fchown.
const GIVEN_AWAY: &[&str] = &[
    "   5: 0200007F:8C6D 0100007F:7992 01 00000000:00000000 00:00000000 00000000  1234        0 657324 2 000000004e7a58aa 20 0 0 10 -1                    ",
    "   7: 0100007F:7992 0200007F:8C6D 01 00000000:00000000 00:00000000 00000000     0        0 657325 1 00000000d80beef8 20 0 0 10 -1                    ",
];

/// The same with another socket.
const ANOTHER_SOCKET: &str =
    "   9: 0200007F:8C6D 0100007F:7992 01 00000000:00000000 00:00000000 00000000  1234        0 657326 2 000000004e7a58aa 20 0 0 10 -1                    ";

/// A client of uid 1234 at 127.0.0.1, whose two ends were shown again: others had come when all lines were read.
const SHOWN_AGAIN: &[&str] = &[
    "   1: 0100007F:7994 00000000:0000 0A 00000000:00000000 00:00000000 00000000     0        0 799435 1 000000007a4bf052 100 0 0 10 0                    ",
    "   7: 0100007F:E892 0100007F:7994 01 00000000:00000000 00:00000000 00000000  1234        0 799440 2 00000000ff517fc4 20 0 0 10 -1                    ",
    "   8: 0100007F:E894 0100007F:7994 01 00000000:00000000 00:00000000 00000000  1234        0 799442 2 00000000480c6113 20 0 0 10 -1                    ",
    "   9: 0100007F:7994 0100007F:E894 01 00000000:00000000 00:00000000 00000000  1234        0 799443 1 00000000555f07b7 20 0 0 10 -1                    ",
    "  10: 0100007F:E894 0100007F:7994 01 00000000:00000000 00:00000000 00000000  1234        0 799442 2 00000000480c6113 20 0 0 10 -1                    ",
    "  11: 0100007F:7994 0100007F:E894 01 00000000:00000000 00:00000000 00000000  1234        0 799443 1 00000000555f07b7 20 0 0 10 -1                    ",
];

const V4: Host = Host::V4([127, 0, 0, 1]);

const V6: Host = Host::V6([0, 0, 0, 0, 0, 0, 0, 0, 0, 0, 0, 0, 0, 0, 0, 1]);

/// The text of a table.
fn table_of(alloc: Global, head: &str, lines: &[&str]) -> Result<Vec<u8>, AllocError> {
    let mut table = Vec::new(alloc);
    table.extend_from_slice(head.as_bytes())?;
    table.push(b'\n')?;
    for line in lines {
        table.extend_from_slice(line.as_bytes())?;
        table.push(b'\n')?;
    }
    Ok(table)
}

/// The text of /proc/net/tcp with the lines of such a listener.
pub(crate) fn table_at(alloc: Global, door: &Door) -> Result<Vec<u8>, AllocError> {
    table_of(alloc, HEAD, door.lines)
}

/// A table of which at most so many bytes come at once.
#[derive(Drop)]
struct Slices<'a> {
    text: &'a [u8],
    most: usize,
}

impl Read for Slices<'_> {
    fn read(&mut self, room: &mut [u8]) -> io::Result<usize> {
        let count = self.most.min(room.len()).min(self.text.len());
        let (slice, rest) = self.text.split_at(count);
        for (place, byte) in room.iter_mut().zip(slice) {
            *place = *byte;
        }
        self.text = rest;
        Ok(count)
    }
}

/// What is looked for, after a walk through a table that comes in such slices.
pub(crate) fn walked(alloc: Global, table: &[u8], most: usize, sight: Sight) -> Option<Sight> {
    let mut sights = Vec::new(alloc);
    sights.push(Some(sight)).ok()?;
    let mut lines = Lines::new(alloc, true).ok()?;
    let mut slices = Slices { text: table, most };
    for _ in 0..=table.len() {
        if lines.read(&mut slices).ok()? == 0 {
            break;
        }
        lines.look_at_whole(sights.as_mut_slice());
    }
    lines.look_at_last(sights.as_mut_slice());
    sights.pop()?
}

fn found_in(alloc: Global, table: &[u8], most: usize, sight: Sight) -> Option<u32> {
    walked(alloc, table, most, sight)?.uid()
}

/// Whom the table shows, which comes in slices that cut its lines.
fn uid_of(alloc: Global, table: &[u8], theirs: &Peer, ours: &Peer) -> Option<u32> {
    found_in(alloc, table, 100, Sight::new(theirs, ours))
}

/// The same in IPv6's form.
fn uid_of_mapped(alloc: Global, table: &[u8], theirs: &Peer, ours: &Peer) -> Option<u32> {
    found_in(alloc, table, 100, Sight::new_mapped(theirs, ours))
}

/// The clients' ends show the uid of the two that are connected, and our own ends that of the one that is accepted.
fn ends_are_shown(
    rt: &impl Abort,
    alloc: Global,
    table: &[u8],
    door: &Door,
    host: Host,
    our_uid: Option<u32>,
) {
    let Door {
        port,
        clients,
        uid,
        ..
    } = door;
    let ours = Peer::new(host, *port);
    let [first, second, third, fourth] = clients.map(|port| Peer::new(host, port));
    assert_eq!(rt; uid_of(alloc, table, &first, &ours), Some(*uid));
    assert_eq!(rt; uid_of(alloc, table, &second, &ours), None);
    assert_eq!(rt; uid_of(alloc, table, &third, &ours), None);
    assert_eq!(rt; uid_of(alloc, table, &fourth, &ours), Some(*uid));
    assert_eq!(rt; uid_of(alloc, table, &ours, &first), our_uid);
    assert_eq!(rt; uid_of(alloc, table, &ours, &fourth), None);
}

// EVIDENCE-1 EVIDENCE-3
#[test]
fn clients_over_ipv4_are_shown(rt: HostRuntime) -> Result<(), Fail> {
    for door in [AT_31111, AT_31112] {
        let table = table_of(rt.alloc(), HEAD, door.lines)?;
        ends_are_shown(&rt, rt.alloc(), &table, &door, V4, Some(0));
    }
    Ok(())
}

// EVIDENCE-1
#[test]
fn clients_over_ipv6_are_shown(rt: HostRuntime) -> Result<(), Fail> {
    for door in [AT_31113, AT_31114, AT_31116] {
        let table = table_of(rt.alloc(), HEAD6, door.lines)?;
        ends_are_shown(&rt, rt.alloc(), &table, &door, V6, Some(0));
    }
    Ok(())
}

/// Our own ends are not in the table of IPv4, but in the other one.
#[test]
fn clients_over_ipv4_of_every_host_are_shown(rt: HostRuntime) -> Result<(), Fail> {
    let door = AT_31115;
    let table = table_of(rt.alloc(), HEAD, door.lines)?;
    ends_are_shown(&rt, rt.alloc(), &table, &door, V4, None);
    let table6 = table_of(rt.alloc(), HEAD6, AT_31115_TCP6)?;
    let ours = Peer::new(V4, door.port);
    let [first, _, _, fourth] = door.clients.map(|port| Peer::new(V4, port));
    assert_eq!(rt; uid_of_mapped(rt.alloc(), &table6, &ours, &first), Some(0));
    assert_eq!(rt; uid_of_mapped(rt.alloc(), &table6, &ours, &fourth), None);
    assert_eq!(rt; uid_of_mapped(rt.alloc(), &table6, &first, &ours), None);
    Ok(())
}

// EVIDENCE-4
#[test]
fn sockets_of_ipv6_are_shown_in_its_table(rt: HostRuntime) -> Result<(), Fail> {
    let table = table_of(rt.alloc(), HEAD, OVER_IPV6)?;
    let table6 = table_of(rt.alloc(), HEAD6, OVER_IPV6_TCP6)?;
    let theirs = Peer::new(V4, 55_426);
    let ours = Peer::new(V4, 31_121);
    assert_eq!(rt; uid_of(rt.alloc(), &table, &theirs, &ours), None);
    assert_eq!(rt; uid_of(rt.alloc(), &table6, &theirs, &ours), None);
    assert_eq!(rt;
        uid_of_mapped(rt.alloc(), &table6, &theirs, &ours),
        Some(65_534)
    );
    Ok(())
}

/// Whom the lines show at a host and port, of the listener at 127.0.0.1 port 31122.
fn shown(
    rt: &HostRuntime,
    lines: &[&str],
    host: Host,
    port: u16,
) -> Result<Option<u32>, AllocError> {
    let table = table_of(rt.alloc(), HEAD, lines)?;
    Ok(uid_of(
        rt.alloc(),
        &table,
        &Peer::new(host, port),
        &Peer::new(V4, 31_122),
    ))
}

// EVIDENCE-2
#[test]
fn clients_come_and_go(rt: HostRuntime) -> Result<(), Fail> {
    let other = Host::V4([127, 0, 0, 2]);
    assert_eq!(rt; shown(&rt, CLOSED, V4, 31_123), Ok(None));
    assert_eq!(rt; shown(&rt, AGAIN, V4, 31_123), Ok(Some(0)));
    assert_eq!(rt; shown(&rt, FROM_ANOTHER, other, 35_949), Ok(Some(0)));
    assert_eq!(rt; shown(&rt, FROM_ANOTHER, V4, 35_949), Ok(None));
    assert_eq!(rt; shown(&rt, GIVEN_AWAY, other, 35_949), Ok(Some(1234)));
    Ok(())
}

// EVIDENCE-7
#[test]
fn socket_shown_again_is_one(rt: HostRuntime) -> Result<(), Fail> {
    let table = table_of(rt.alloc(), HEAD, SHOWN_AGAIN)?;
    let ours = Peer::new(V4, 31_124);
    let [again, once] = [59_540, 59_538].map(|port| Peer::new(V4, port));
    assert_eq!(rt; uid_of(rt.alloc(), &table, &again, &ours), Some(1234));
    assert_eq!(rt; uid_of(rt.alloc(), &table, &ours, &again), Some(1234));
    assert_eq!(rt; uid_of(rt.alloc(), &table, &once, &ours), Some(1234));
    Ok(())
}

// EVIDENCE-1
/// Lines of two uids, and of two inodes.
#[test]
fn two_sockets_are_nobody(rt: HostRuntime) -> Result<(), Fail> {
    let other = Host::V4([127, 0, 0, 2]);
    let uids = [FROM_ANOTHER[0], GIVEN_AWAY[0]];
    let inodes = [GIVEN_AWAY[0], ANOTHER_SOCKET];
    assert_eq!(rt;
        shown(&rt, &[ANOTHER_SOCKET], other, 35_949),
        Ok(Some(1234))
    );
    assert_eq!(rt; shown(&rt, &uids, other, 35_949), Ok(None));
    assert_eq!(rt; shown(&rt, &inodes, other, 35_949), Ok(None));
    Ok(())
}

/// A table without lines, and one that is cut off in the line.
#[test]
fn other_tables_show_nobody(rt: HostRuntime) -> Result<(), Fail> {
    let door = AT_31112;
    let ours = Peer::new(V4, door.port);
    let [first, ..] = door.clients.map(|port| Peer::new(V4, port));
    assert_eq!(rt; uid_of(rt.alloc(), b"", &first, &ours), None);
    let table = table_at(rt.alloc(), &door)?;
    let place = HEAD.len() + 1 + 150 + 75;
    assert_eq!(rt; uid_of(rt.alloc(), &table[..place], &first, &ours), None);
    Ok(())
}

// EVIDENCE-5 EVIDENCE-6
/// Of whatever size its slices are, a table shows the same.
#[test]
fn slices_are_the_table(rt: HostRuntime) -> Result<(), Fail> {
    let door = AT_31112;
    let table = table_at(rt.alloc(), &door)?;
    let ours = Peer::new(V4, door.port);
    let [first, second, ..] = door.clients.map(|port| Peer::new(V4, port));
    for most in [1, 7, 150, 151, 4096] {
        let found = found_in(rt.alloc(), &table, most, Sight::new(&first, &ours));
        assert_eq!(rt; found, Some(door.uid), "{most}");
        let found = found_in(rt.alloc(), &table, most, Sight::new(&second, &ours));
        assert_eq!(rt; found, None, "{most}");
    }
    Ok(())
}
