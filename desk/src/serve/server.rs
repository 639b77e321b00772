//! The server: a fixed number of threads, one connection each, one request a connection.
use super::bounds;
use super::guard::Own;
use super::incoming::{self, answer};
use super::outgoing::{Bad, Code, Response};
use super::plan::World;
use super::routes;
use super::token::Token;
use std::io;
use std::net::{Ipv4Addr, TcpListener, TcpStream};
use std::panic::{AssertUnwindSafe, catch_unwind};
use std::sync::Arc;
use std::thread;
use std::time::{Duration, Instant};

/// A server that listens and does not answer yet.
pub struct Server {
    listener: TcpListener,
    state: Arc<State>,
}

/// What all threads have in common.
struct State {
    own: Own,
    world: World,
}

impl Server {
    /// Listens at a port of this computer, which no other computer reaches. Port 0 is any that is free.
    ///
    /// # Errors
    /// The port is taken, or there is no source of random bytes.
    pub fn bind(port: u16, world: World) -> io::Result<Server> {
        let listener = TcpListener::bind((Ipv4Addr::LOCALHOST, port))?;
        let own = Own::new(listener.local_addr()?.port(), Token::draw()?);
        let state = Arc::new(State { own, world });
        Ok(Server { listener, state })
    }

    /// Returns the address for a browser, with the token.
    #[must_use]
    pub fn address(&self) -> String {
        self.state.own.address()
    }

    /// Answers until the program ends.
    ///
    /// # Errors
    /// No thread can be started.
    pub fn run(self) -> io::Result<()> {
        let mut workers = Vec::new();
        for _ in 0..bounds::WORKERS {
            let (listener, state) = (self.listener.try_clone()?, self.state.clone());
            let work = move || -> () { work(&listener, &state) };
            workers.push(thread::Builder::new().spawn(work)?);
        }
        for worker in workers {
            // A worker never ends: it catches what goes wrong.
            drop(worker.join());
        }
        Ok(())
    }
}

/// Takes one connection after the other.
fn work(listener: &TcpListener, state: &State) {
    loop {
        match listener.accept() {
            Ok((stream, _)) => served(stream, state),
            // The system has no room for another connection: wait for one to end.
            Err(_) => thread::sleep(Duration::from_millis(50)),
        }
    }
}

/// Serves a connection. If it breaks there is nobody to tell.
fn served(mut stream: TcpStream, state: &State) {
    let deadline = Instant::now() + bounds::TIME;
    let request = match incoming::read(&mut stream, deadline) {
        Ok(None) => return,
        Ok(Some(request)) => Ok(request),
        Err(bad) => Err(bad),
    };
    let response = request.and_then(|request| {
        let path = state.own.admit(&request.head)?;
        // A defect in one answer is not to end the others.
        let answered = AssertUnwindSafe(|| routes::answer(&state.world, &request, path));
        catch_unwind(answered).unwrap_or_else(|_| Err(defect()))
    });
    let response = response.unwrap_or_else(Response::from);
    drop(answer(&mut stream, &response.bytes()));
}

fn defect() -> Bad {
    Bad::new(Code::Broken, "the program has a defect: no answer is given")
}
