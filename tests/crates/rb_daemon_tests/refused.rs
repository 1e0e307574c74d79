//! Memory that is refused as a daemon is made. As the gate runs it nothing is refused; `tests/run-tests.sh
//! rb_daemon_tests -- --fail-alloc N` refuses the allocation of number N.
use crate::turns::{HERE, Stopped, plain};
use rb_daemon::{Daemon, DaemonFault, Handed, Starts};
use rb_inside::Inside;

#[test]
fn refused_memory_of_a_daemon(rt: HostRuntime) {
    let clock = Stopped::new(&rt);
    let settings = plain(&HERE, 2);
    let made: Result<Daemon<'_, Stopped, HostRuntime, Inside<HostRuntime>>, DaemonFault> =
        Daemon::new(
            rt.alloc(),
            &rt,
            &clock,
            &settings,
            &[],
            Handed::none(rt.alloc()),
        );
    assert!(rt; matches!(made, Ok(_) | Err(DaemonFault::Memory(_))));
}
