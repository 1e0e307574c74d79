use rb_plans::read_networks;
use std::test::Fail;

/// What Linux listed on a machine that had 10.1.4.9/22 and 172.16.5.130/26, with routes to one host, through gateways,
/// and to nowhere. Of its addresses it said `brd 10.1.7.255` and `brd 172.16.5.191`.
const ROUTES: &[u8] =
    b"Iface\tDestination\tGateway \tFlags\tRefCnt\tUse\tMetric\tMask\t\tMTU\tWindow\tIRTT        \n\
v0\t00000000\t0104010A\t0003\t0\t0\t0\t00000000\t0\t0\t0        \n\
v0\t0004010A\t00000000\t0001\t0\t0\t0\t00FCFFFF\t0\t0\t0        \n\
v1\t800510AC\t00000000\t0001\t0\t0\t0\tC0FFFFFF\t0\t0\t0        \n\
*\t000200C0\t00000000\t0201\t0\t0\t0\t00FFFFFF\t0\t0\t0         \n\
v1\t076433C6\t00000000\t0005\t0\t0\t0\tFFFFFFFF\t0\t0\t0        \n\
v1\t007100CB\t810510AC\t0003\t0\t0\t0\t00FFFFFF\t0\t0\t0        \n";

// BROADCAST-1
/// `-b` asks the networks that the machine is on.
#[test]
fn networks_are_read(rt: HostRuntime) -> Result<(), Fail> {
    let networks = read_networks(rt.alloc(), ROUTES)?;
    assert_eq!(rt; networks.len(), 2);
    assert_eq!(rt; networks.first(), Some(&[10, 1, 7, 255]));
    assert_eq!(rt; networks.last(), Some(&[172, 16, 5, 191]));
    Ok(())
}
