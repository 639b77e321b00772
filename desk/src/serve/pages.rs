//! The files of the page, which are part of the program.
use super::outgoing::{Code, Response};

/// A file of the page.
pub struct Page {
    /// Its address after the token.
    pub path: &'static str,
    kind: &'static str,
    text: &'static str,
}

const SCRIPT: &str = "text/javascript; charset=utf-8";

const fn page(path: &'static str, kind: &'static str, text: &'static str) -> Page {
    Page { path, kind, text }
}

/// All files.
#[rustfmt::skip]
pub const PAGES: &[Page] = &[
    page("", "text/html; charset=utf-8", include_str!("../../web/page.html")),
    page("style.css", "text/css; charset=utf-8", include_str!("../../web/style.css")),
    page("icon.svg", "image/svg+xml", include_str!("../../web/icon.svg")),
    page("ask.js", SCRIPT, include_str!("../../web/ask.js")),
    page("cart.js", SCRIPT, include_str!("../../web/cart.js")),
    page("dom.js", SCRIPT, include_str!("../../web/dom.js")),
    page("drive.js", SCRIPT, include_str!("../../web/drive.js")),
    page("edit.js", SCRIPT, include_str!("../../web/edit.js")),
    page("gap.js", SCRIPT, include_str!("../../web/gap.js")),
    page("keys.js", SCRIPT, include_str!("../../web/keys.js")),
    page("page.js", SCRIPT, include_str!("../../web/page.js")),
    page("scene.js", SCRIPT, include_str!("../../web/scene.js")),
    page("view.js", SCRIPT, include_str!("../../web/view.js")),
];

/// Returns the file at an address.
#[must_use]
pub fn find(path: &str) -> Option<&'static Page> {
    PAGES.iter().find(|page| page.path == path)
}

impl Page {
    /// Returns the answer that has it.
    #[must_use]
    pub fn response(&self) -> Response {
        Response {
            code: Code::Fine,
            kind: self.kind,
            body: self.text.as_bytes().into(),
        }
    }
}
