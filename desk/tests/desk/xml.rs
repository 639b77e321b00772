//! XML, read back: elements with their attributes, and whether they are nested well.
use std::collections::BTreeMap;

#[derive(Clone, Debug, PartialEq, Eq)]
pub struct Element {
    pub name: String,
    pub attributes: BTreeMap<String, String>,
    /// The elements that it is in, the outermost first, by their positions in the list.
    pub inside: Vec<usize>,
    pub text: String,
}

impl Element {
    pub fn get(&self, key: &str) -> &str {
        self.attributes.get(key).map_or("", String::as_str)
    }
}

/// Reads all elements of a document, in order.
pub fn read(text: &str) -> Result<Vec<Element>, String> {
    let mut elements: Vec<Element> = Vec::new();
    let mut open: Vec<usize> = Vec::new();
    let mut rest = text;
    while let Some((before, after)) = rest.split_once('<') {
        add_text(&mut elements, &open, before)?;
        let (tag, after) = after.split_once('>').ok_or("a tag without an end")?;
        rest = after;
        if let Some(name) = tag.strip_prefix('/') {
            let closed = open.pop().ok_or("more ends than beginnings")?;
            if elements[closed].name != name {
                return Err(format!("`{}` is ended as `{name}`", elements[closed].name));
            }
            continue;
        }
        let (tag, is_empty) = tag
            .strip_suffix('/')
            .map_or((tag, false), |tag| (tag, true));
        elements.push(element(tag, &open)?);
        if !is_empty {
            open.push(elements.len() - 1);
        }
    }
    match (open.is_empty(), rest.trim()) {
        (true, "") => Ok(elements),
        _ => Err(format!("{} elements are left open", open.len())),
    }
}

fn add_text(elements: &mut [Element], open: &[usize], text: &str) -> Result<(), String> {
    let text = unescaped(text.trim())?;
    match open.last() {
        Some(&at) => elements[at].text.push_str(&text),
        None if text.is_empty() => {}
        None => return Err(format!("text outside of all elements: {text}")),
    }
    Ok(())
}

fn element(tag: &str, open: &[usize]) -> Result<Element, String> {
    let (name, mut rest) = tag.split_once(' ').unwrap_or((tag, ""));
    let mut attributes = BTreeMap::new();
    while let Some((key, after)) = rest.split_once("=\"") {
        let (value, after) = after.split_once('"').ok_or("a value without an end")?;
        if attributes
            .insert(key.trim().to_string(), unescaped(value)?)
            .is_some()
        {
            return Err(format!("`{key}` twice in {tag}"));
        }
        rest = after;
    }
    if !rest.trim().is_empty() {
        return Err(format!("`{rest}` in a tag"));
    }
    Ok(Element {
        name: name.to_string(),
        attributes,
        inside: open.to_vec(),
        text: String::new(),
    })
}

fn unescaped(text: &str) -> Result<String, String> {
    let mut parts = text.split('&');
    let mut whole = parts.next().unwrap_or("").to_string();
    for part in parts {
        let (name, after) = part.split_once(';').ok_or("& without an end")?;
        whole.push(match name {
            "amp" => '&',
            "lt" => '<',
            "gt" => '>',
            "quot" => '"',
            other => return Err(format!("no sign is called {other}")),
        });
        whole.push_str(after);
    }
    Ok(whole)
}
