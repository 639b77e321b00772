//! Who may ask: this program's own page, opened by its address with the token.
//!
//! Another site that a browser shows can send requests to this computer too. It cannot read the token, its headers
//! Origin and Sec-Fetch-Site differ, and a name of its own that leads here (DNS rebinding) is in the header Host.
use super::head::{Head, Method};
use super::outgoing::{Bad, Code};
use super::token::Token;

/// The server's own address.
#[derive(Debug)]
pub struct Own {
    port: u16,
    token: Token,
}

impl Own {
    /// The address at a port of this computer, with a token.
    #[must_use]
    pub fn new(port: u16, token: Token) -> Own {
        Own { port, token }
    }

    /// Returns the address for a browser.
    #[must_use]
    pub fn address(&self) -> String {
        format!("http://{}/{}/", self.host(), self.token.as_str())
    }

    /// What browsers call it. The port 80 is left out by them.
    fn host(&self) -> String {
        match self.port {
            80 => "127.0.0.1".to_string(),
            port => format!("127.0.0.1:{port}"),
        }
    }

    /// Returns what is asked for: the address after the token.
    ///
    /// # Errors
    /// The request comes from elsewhere, 403, or does not say for whom it is, 400.
    pub fn admit<'a>(&self, head: &'a Head) -> Result<&'a str, Bad> {
        let Some(host) = head.header("host")? else {
            return Err(Bad::request("the request has no Host"));
        };
        if host != self.host() {
            let why = "the Host is not this program's: open the address that it printed";
            return Err(Bad::new(Code::Forbidden, why));
        }
        if let Some(origin) = head.header("origin")?
            && origin != format!("http://{}", self.host())
        {
            let why = "the request comes from another origin";
            return Err(Bad::new(Code::Forbidden, why));
        }
        let site = head.header("sec-fetch-site")?;
        if !is_own_site(head.method, site) {
            return Err(Bad::new(
                Code::Forbidden,
                "the request comes from another site",
            ));
        }
        self.after_token(&head.target)
    }

    fn after_token<'a>(&self, target: &'a str) -> Result<&'a str, Bad> {
        let path = target.strip_prefix('/').unwrap_or(target);
        let (token, rest) = path.split_once('/').unwrap_or((path, "?"));
        if self.token.is(token) {
            return Ok(rest);
        }
        let why = "the address lacks the token: open the address that the program printed";
        Err(Bad::new(Code::Forbidden, why))
    }
}

/// A browser says `none` if a person typed the address, and only pages are opened so. Other programs say nothing.
fn is_own_site(method: Method, site: Option<&str>) -> bool {
    match site {
        None | Some("same-origin") => true,
        Some("none") => method == Method::Get,
        Some(_) => false,
    }
}
