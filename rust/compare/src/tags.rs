//! Pictures in SVG and pages in HTML, held to being well formed both as XML and to a browser, and to showing nothing from elsewhere.

use examiner::text::{quoted, Mistake};
use std::collections::HashSet;

/// An element: its name, its attributes in order, what it holds.
#[derive(Clone, Debug, PartialEq, Eq)]
pub struct Element {
    pub name: String,
    pub attributes: Vec<(String, String)>,
    pub nodes: Vec<Node>,
}

/// What an element holds. All text between two tags is one node, white space too.
#[derive(Clone, Debug, PartialEq, Eq)]
pub enum Node {
    Element(Element),
    Text(String),
}

impl Element {
    pub fn attribute(&self, name: &str) -> Option<&str> {
        self.attributes.iter().find(|(other, _)| other == name).map(|(_, value)| value.as_str())
    }

    /// The text inside, of all elements below, in order.
    pub fn text(&self) -> String {
        let text = |node: &Node| match node {
            Node::Element(element) => element.text(),
            Node::Text(text) => text.clone(),
        };
        self.nodes.iter().map(text).collect()
    }

    /// This element and all below it, in document order.
    pub fn all(&self) -> Vec<&Element> {
        let below = self.nodes.iter().flat_map(|node| match node {
            Node::Element(element) => element.all(),
            Node::Text(_) => Vec::new(),
        });
        std::iter::once(self).chain(below).collect()
    }

    /// Those of a name, in document order.
    pub fn named(&self, name: &str) -> Vec<&Element> {
        self.all().into_iter().filter(|element| element.name == name).collect()
    }

    /// Those whose attribute `class` has this word.
    pub fn of_class(&self, class: &str) -> Vec<&Element> {
        let has = |element: &&Element| element.attribute("class").is_some_and(|words| words.split_ascii_whitespace().any(|word| word == class));
        self.all().into_iter().filter(has).collect()
    }
}

/// White space of XML. A carriage return is none here: XML would read it as a line feed.
const WHITE: [char; 3] = [' ', '\t', '\n'];
const ENTITIES: [(&str, char); 5] = [("&amp;", '&'), ("&lt;", '<'), ("&gt;", '>'), ("&quot;", '"'), ("&#39;", '\'')];
/// The elements of HTML that have no end tag. `link` has none either, and is refused.
const VOID: [&str; 6] = ["meta", "br", "hr", "img", "input", "col"];
/// Elements that run, fetch or send something, or hold another kind of document.
const REFUSED: [&str; 8] = ["script", "iframe", "object", "embed", "link", "base", "form", "foreignobject"];
/// What no name, text or value may hold: the end of CDATA, which XML forbids in texts, and what names something elsewhere.
const REFUSED_TEXTS: [&str; 4] = ["]]>", "url(", "@import", "http"];
/// The one value that names something elsewhere and fetches nothing.
const SVG: &str = "http://www.w3.org/2000/svg";

/// Reads one document: an optional `<!DOCTYPE html>` line, then exactly one element, then at most white space.
pub fn read(text: &str) -> Result<Element, String> {
    let line = |rest: &str| 1 + text[..text.len() - rest.len()].matches('\n').count();
    let read = Reader { rest: text, ids: HashSet::new(), references: Vec::new() }.document();
    read.map_err(|(rest, what)| Mistake::new(line(rest), what).to_string())
}

/// The rest of the text from a mistake on, which tells the line, and what is wrong.
type Wrong<'a> = (&'a str, String);

/// A mistake there, unless this holds.
fn hold<'a>(holds: bool, place: &'a str, what: impl FnOnce() -> String) -> Result<(), Wrong<'a>> {
    if holds { Ok(()) } else { Err((place, what())) }
}

struct Reader<'a> {
    rest: &'a str,
    ids: HashSet<String>,
    /// The ids that attributes name, and where: the element may come later.
    references: Vec<(&'a str, String)>,
}

impl<'a> Reader<'a> {
    fn document(mut self) -> Result<Element, Wrong<'a>> {
        let refused = |&(_, c): &(usize, char)| c.is_control() && !WHITE.contains(&c) || matches!(c, '\u{FFFE}' | '\u{FFFF}');
        if let Some((at, c)) = self.rest.char_indices().find(refused) {
            return Err((&self.rest[at..], format!("character U+{:04X} is refused", u32::from(c))));
        }
        self.take("<!DOCTYPE html>");
        self.take_white();
        hold(self.rest.starts_with('<'), self.rest, || format!("{} where the one element is to start", self.here()))?;
        let root = self.element(false)?;
        self.take_white();
        hold(self.rest.is_empty(), self.rest, || format!("{} after the one element", self.here()))?;
        for (place, id) in &self.references {
            hold(self.ids.contains(id), place, || format!("no element has the id {}", quoted(id)))?;
        }
        Ok(root)
    }

    /// What comes next, for a message.
    fn here(&self) -> String {
        self.rest.split_inclusive(['>', '\n']).next().map_or("the end".to_string(), |next| quoted(next.trim_end_matches('\n')))
    }

    /// Passes over this, where it comes next.
    fn take(&mut self, what: &str) -> bool {
        let rest = self.rest.strip_prefix(what);
        self.rest = rest.unwrap_or(self.rest);
        rest.is_some()
    }

    fn take_white(&mut self) -> bool {
        let rest = self.rest.trim_start_matches(WHITE);
        rest.len() < std::mem::replace(&mut self.rest, rest).len()
    }

    /// So many bytes of a name, a text or a value. To a browser `URL(` is `url(`.
    fn taken(&mut self, length: usize) -> Result<&'a str, Wrong<'a>> {
        let (taken, rest) = self.rest.split_at(length);
        let lower = taken.to_ascii_lowercase();
        for what in REFUSED_TEXTS {
            if let Some(at) = lower.find(what) {
                return Err((&self.rest[at..], format!("{what} is refused")));
            }
        }
        self.rest = rest;
        Ok(taken)
    }

    fn name(&mut self) -> Result<&'a str, Wrong<'a>> {
        hold(self.rest.starts_with(|c: char| c.is_ascii_alphabetic()), self.rest, || format!("{} where a name is to be", self.here()))?;
        let ends = |c: char| !(c.is_ascii_alphanumeric() || matches!(c, '-' | ':'));
        self.taken(self.rest.find(ends).unwrap_or(self.rest.len()))
    }

    /// A text or a value up to one of these, or to the end.
    fn decoded(&mut self, ends: &[char]) -> Result<String, Wrong<'a>> {
        let mut decoded = String::new();
        loop {
            let length = self.rest.find(|c| c == '&' || ends.contains(&c)).unwrap_or(self.rest.len());
            decoded += self.taken(length)?;
            if !self.rest.starts_with('&') {
                return Ok(decoded);
            }
            match ENTITIES.into_iter().find(|(entity, _)| self.take(entity)) {
                Some((_, c)) => decoded.push(c),
                None => return Err((self.rest, format!("{} starts with none of &amp; &lt; &gt; &quot; &#39;", self.here()))),
            }
        }
    }

    fn element(&mut self, in_svg: bool) -> Result<Element, Wrong<'a>> {
        let start = self.rest;
        let (element, closed) = self.tag()?;
        let name = &element.name;
        let (void, in_svg) = (VOID.contains(&name.to_ascii_lowercase().as_str()), in_svg || name == "svg");
        hold(closed || !void, start, || format!("<{name}> never has an end tag: write <{name}/>"))?;
        hold(!closed || void || in_svg, start, || format!("a browser takes <{name}/> for an open tag: write <{name}></{name}>"))?;
        let nodes = if closed { Vec::new() } else { self.nodes(start, name, in_svg)? };
        Ok(Element { nodes, ..element })
    }

    /// What the element of this name holds that started there, and its end tag.
    fn nodes(&mut self, start: &'a str, name: &str, in_svg: bool) -> Result<Vec<Node>, Wrong<'a>> {
        let mut nodes = Vec::new();
        loop {
            let text = self.decoded(if name == "style" { &['<'] } else { &['<', '>'] })?;
            nodes.extend((!text.is_empty()).then_some(Node::Text(text)));
            hold(!self.rest.is_empty(), start, || format!("<{name}> isn't closed"))?;
            hold(!self.rest.starts_with('>'), self.rest, || "> in a text: write &gt;".to_string())?;
            if self.take(&format!("</{name}>")) {
                return Ok(nodes);
            }
            hold(!self.rest.starts_with("</"), self.rest, || format!("{} where </{name}> is to come", self.here()))?;
            nodes.push(Node::Element(self.element(in_svg)?));
        }
    }

    /// The tag that starts an element, which holds nothing yet, and whether the tag closes it.
    fn tag(&mut self) -> Result<(Element, bool), Wrong<'a>> {
        let (start, other) = (self.rest, self.rest.starts_with("<!") || self.rest.starts_with("<?"));
        hold(!other, start, || format!("{} is refused, as all comments, CDATA, instructions and other doctypes", self.here()))?;
        self.take("<");
        let name = self.name()?;
        hold(!REFUSED.contains(&name.to_ascii_lowercase().as_str()), start, || format!("<{name}> is refused"))?;
        let mut element = Element { name: name.to_string(), attributes: Vec::new(), nodes: Vec::new() };
        loop {
            let (parted, place) = (self.take_white(), self.rest);
            let closed = self.take("/>");
            if closed || self.take(">") {
                return Ok((element, closed));
            }
            let (name, value) = self.attribute()?;
            hold(parted, place, || format!("attribute {name} has no space before it"))?;
            // HTML knows no case of letters in names.
            let twice = element.attributes.iter().any(|(other, _)| other.eq_ignore_ascii_case(name));
            hold(!twice, place, || format!("attribute {name} is there twice"))?;
            self.judge(place, name, &value)?;
            element.attributes.push((name.to_string(), value));
        }
    }

    fn attribute(&mut self) -> Result<(&'a str, String), Wrong<'a>> {
        let (place, name) = (self.rest, self.name()?);
        hold(self.take("=\""), place, || format!("attribute {name} has no value in double quotes"))?;
        if name == "xmlns" && self.take(&format!("{SVG}\"")) {
            return Ok((name, SVG.to_string()));
        }
        let value = self.decoded(&['"', '<'])?;
        hold(self.take("\""), self.rest, || format!("{} in the value of attribute {name}", self.here()))?;
        Ok((name, value))
    }

    /// Refuses an attribute that runs or fetches something, and keeps the ids. `xlink:href` is a `href` too.
    fn judge(&mut self, place: &'a str, name: &str, value: &str) -> Result<(), Wrong<'a>> {
        let lower = name.to_ascii_lowercase();
        let local = lower.rsplit(':').next().unwrap_or_default();
        hold(!local.starts_with("on"), place, || format!("attribute {name} is refused"))?;
        match local {
            "id" => hold(self.ids.insert(value.to_string()), place, || format!("id {} is there twice", quoted(value)))?,
            "href" | "src" => {
                hold(value.starts_with('#'), place, || format!("{name} {} doesn't start with #", quoted(value)))?;
                self.references.push((place, value[1..].to_string()));
            }
            "for" | "aria-labelledby" | "aria-describedby" | "headers" => {
                self.references.extend(value.split(' ').map(|id| (place, id.to_string())));
            }
            _ => {}
        }
        Ok(())
    }
}
