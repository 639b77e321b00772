//! `cocklesway serve`: a map in a browser.
use crate::command::{Command, Console, Status, Trouble};
use crate::options::{Arguments, Known, Misuse};
use crate::serve::plan::World;
use crate::serve::server::Server;

/// How it is called, and what it does.
pub const COMMAND: Command = Command {
    name: "serve",
    takes: "MAP",
    does: "shows a map in a browser, on this computer only",
    options: &[PORT],
    page: "\
Prints an address to open in a browser, and answers its page until Ctrl-C ends the program. The page
shows the floors to scale. Carts are dragged, drives drawn, gaps measured and obstacles edited there,
and every answer comes from the library. Changes are saved as a new file by the browser: the map
itself is read once and never written.

    cocklesway serve map.txt
    cocklesway serve map.txt --port 8080

Only this computer reaches the address, and only with the secret that is part of it. The secret is new
in each run. The status is 2 if the map cannot be read or the port is taken.
",
    run,
};

const PORT: Known = Known {
    name: "--port",
    value: Some("N"),
    does: "the port; a free one without it, or with 0",
    many: false,
};

fn run(arguments: &Arguments, console: &mut Console<'_>) -> Result<Status, Trouble> {
    let port = port(arguments)?;
    if arguments.files.len() > 1 {
        return Err(Misuse::Other("`serve` shows one map".to_string()).into());
    }
    let mut sources = console.sources(&arguments.files)?;
    let Some(source) = sources.pop() else {
        return Err(Misuse::NoFile.into());
    };
    let file = source.name.clone();
    let server = match Server::bind(port, World::new(source)) {
        Ok(server) => server,
        Err(error) => {
            console.complain(&format!("port {port}: cannot be served: {error}"))?;
            return Ok(Status::Wrong);
        }
    };
    let address = server.address();
    console.say(&format!("{file} is shown at {address}"))?;
    console.say("Open the address in a browser of this computer. Ctrl-C ends the program.")?;
    console.output.flush()?;
    server.run()?;
    Ok(Status::Fine)
}

fn port(arguments: &Arguments) -> Result<u16, Misuse> {
    let Some(value) = arguments.value(PORT.name) else {
        return Ok(0);
    };
    let text = value.to_string_lossy();
    let wanted = "a port from 0 to 65535";
    text.parse()
        .map_err(|_| Misuse::BadValue(PORT.name, text.to_string(), wanted))
}
