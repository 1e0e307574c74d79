//! A driver of the core: what comes from outside is handed to the core, and what the core owes goes out.

use rb_address::{Peer, Who};
use rb_core::{CoreFault, Expired, Metered, Response, Standing, Told};

/// What comes from outside.
#[derive(Clone, Copy)]
pub enum Input<'a> {
    /// A connection was accepted from there.
    Accepted(Who),
    /// Bytes arrived on the connection of this number.
    Arrived(u64),
    /// The other end closed that connection.
    Closed(u64),
    /// A datagram came from there.
    Datagram(Who, &'a [u8]),
    /// A datagram came from there on the socket that sends forwarded calls.
    ForwardReply(Peer, &'a [u8]),
    /// Nothing came before the deadline.
    Deadline,
}

/// What lies outside. In a program these are sockets, and a buffer for each connection.
pub trait Outside {
    /// The connection that was accepted has this number from now on; or there is no place for it, and it is closed.
    fn opened(&mut self, number: Result<u64, CoreFault>);
    /// The bytes that arrived on a connection and are not taken.
    fn arrived(&self, id: u64) -> &[u8];
    /// This many of them are taken.
    fn take(&mut self, id: u64, count: usize);
    /// Bytes go out on a connection.
    fn write(&mut self, id: u64, bytes: &[u8]);
    /// A reply goes to who called by a datagram.
    fn reply(&mut self, who: Who, reply: &[u8]);
    /// A forwarded call goes to its target.
    fn call(&mut self, target: Peer, call: &[u8]);
    /// A connection is closed.
    fn close(&mut self, id: u64);
}

/// Hands one input to the core at the moment `now`, and lets out all that follows from it. Returns the moment at which
/// `Deadline` is the next input, if nothing comes before.
pub fn drive<O: Outside>(core: &mut Metered, out: &mut O, now: u64, input: Input) -> Option<u64> {
    match input {
        Input::Accepted(who) => out.opened(core.open(now, who)),
        Input::Arrived(id) => serve(core, out, now, id),
        Input::Closed(id) => drop(core.closed(id)),
        Input::Datagram(who, content) => match core.datagram(now, who, content) {
            Response::Reply => out.reply(who, core.udp_reply()),
            Response::Forwarded => send_forwarded(core, out),
            Response::NoCall | Response::Silent => {}
        },
        Input::ForwardReply(from, content) => {
            if let Some(told) = core.forward_reply(now, from, content) {
                tell(core, out, now, told);
            }
        }
        Input::Deadline => expire(core, out, now),
    }
    close_lost(core, out);
    core.next_deadline()
}

/// Takes what arrived on a connection, record by record. Each reply goes out before the next record is taken. A call that is
/// forwarded is sent, and the rest stays where it is until that ends.
fn serve<O: Outside>(core: &mut Metered, out: &mut O, now: u64, id: u64) {
    let mut room = [0; 1028];
    while let Ok(done) = core.exchange(now, id, out.arrived(id), &mut room) {
        out.take(id, done.taken.count);
        out.write(id, &room[..done.given]);
        match done.standing {
            Standing::Owing => write_into(core, out, now, id),
            Standing::Idle | Standing::Reading if done.taken.count > 0 => {}
            Standing::Sends => return send_forwarded(core, out),
            _ => return,
        }
    }
}

/// Lets out what a connection owes, as many fragments at a time as the room has place for.
fn write_into<O: Outside>(core: &mut Metered, out: &mut O, now: u64, id: u64) {
    let mut room = [0; 4 * 1028];
    while let Ok(given) = core.write_into(now, id, &mut room) {
        out.write(id, &room[..given.count]);
        if given.standing != Standing::Owing {
            return;
        }
    }
}

/// Tells the caller of a forwarded call how that ended.
fn tell<O: Outside>(core: &mut Metered, out: &mut O, now: u64, told: Told) {
    match told {
        Told::TcpReady(id) => {
            write_into(core, out, now, id);
            serve(core, out, now, id);
        }
        Told::Datagram(_, who) => out.reply(who, core.udp_reply()),
        Told::Silent(_) => {}
    }
}

/// Ends what is due.
fn expire<O: Outside>(core: &mut Metered, out: &mut O, now: u64) {
    loop {
        match core.expire(now) {
            Expired::Ended(told) => tell(core, out, now, told),
            Expired::ConnectionLost(_) => {}
            Expired::Nothing => return,
        }
    }
}

/// Sends the calls that are forwarded.
fn send_forwarded<O: Outside>(core: &mut Metered, out: &mut O) {
    while let Some(unsent) = core.unsent() {
        out.call(unsent.target, unsent.call);
        let id = unsent.id;
        drop(core.sent(id));
    }
}

/// Closes the connections that the core gave up.
fn close_lost<O: Outside>(core: &mut Metered, out: &mut O) {
    while let Some(id) = core.next_lost() {
        out.close(id);
        drop(core.closed(id));
    }
}
