//! Namespaces of a tag: declarations, look-up, numbers 5 and 6.

use crate::lexical::{Name, WrittenAttribute, WrittenTag};
use crate::span::Span;
use crate::table::{XMLNS_URI, XML_URI};

const REFUSED_NAME: u8 = 5;
const REPEATED_NAME: u8 = 6;

/// A declaration: its prefix (zero for the default) and its value.
#[derive(Clone, Copy, Debug, PartialEq, Eq, Hash)]
pub struct Binding {
    pub prefix: Span,
    pub uri: Span,
}

/// A namespace is its URI's bytes.
#[derive(Clone, Copy, Debug, PartialEq, Eq)]
pub enum Namespace {
    None,
    Xml,
    /// The value of the declaration in force.
    Uri(Span),
}

impl Namespace {
    pub fn uri(self, scene: &[u8]) -> &[u8] {
        match self {
            Namespace::None => b"",
            Namespace::Xml => XML_URI,
            Namespace::Uri(span) => span.of(scene),
        }
    }
}

/// An attribute that is not a declaration.
#[derive(Clone, Copy, Debug)]
pub struct Attribute {
    pub part: Span,
    pub value: Span,
    pub prefixed: bool,
    pub namespace: Namespace,
}

/// A start tag with its namespaces.
#[derive(Clone, Debug)]
pub struct StartTag {
    pub name: Span,
    pub part: Span,
    pub namespace: Namespace,
    pub attributes: Vec<Attribute>,
    pub declarations: Vec<Binding>,
    pub empty: bool,
}

/// Gives a written tag its namespaces under the open bindings, or 5, or 6.
pub fn resolve(scene: &[u8], written: &WrittenTag, open: &[Binding]) -> Result<StartTag, u8> {
    let declarations = declarations(scene, &written.attributes)?;
    let scope = Scope {
        scene,
        open,
        own: &declarations,
    };
    let namespace = scope.of_element(&written.name).ok_or(REFUSED_NAME)?;
    let attributes = scope
        .of_attributes(&written.attributes)
        .ok_or(REFUSED_NAME)?;
    if written_twice(scene, &written.attributes) || same_twice(scene, &attributes) {
        return Err(REPEATED_NAME);
    }
    Ok(StartTag {
        name: written.name.whole,
        part: written.name.part,
        namespace,
        attributes,
        declarations,
        empty: written.empty,
    })
}

/// Whether 5 refuses a declaration; the default has the empty prefix.
pub fn refused_binding(prefix: &[u8], uri: &[u8]) -> bool {
    let reserved_prefix = prefix == b"xml" || prefix == b"xmlns";
    let undone_prefix = !prefix.is_empty() && uri.is_empty();
    let reserved_uri = uri == XML_URI || uri == XMLNS_URI;
    reserved_prefix || undone_prefix || reserved_uri || uri.contains(&b'&')
}

/// The prefix that an attribute declares, if it is a declaration.
fn declared_prefix(scene: &[u8], name: &Name) -> Option<Span> {
    if name.prefix.of(scene) == b"xmlns" {
        Some(name.part)
    } else if name.whole.of(scene) == b"xmlns" {
        Some(Span::ZERO)
    } else {
        None
    }
}

fn declarations(scene: &[u8], attributes: &[WrittenAttribute]) -> Result<Vec<Binding>, u8> {
    let mut declarations = Vec::new();
    for attribute in attributes {
        if let Some(prefix) = declared_prefix(scene, &attribute.name) {
            if refused_binding(prefix.of(scene), attribute.value.of(scene)) {
                return Err(REFUSED_NAME);
            }
            declarations.push(Binding {
                prefix,
                uri: attribute.value,
            });
        }
    }
    Ok(declarations)
}

struct Scope<'a> {
    scene: &'a [u8],
    open: &'a [Binding],
    own: &'a [Binding],
}

impl Scope<'_> {
    /// None if 5 refuses the name.
    fn of_element(&self, name: &Name) -> Option<Namespace> {
        match name.prefix.of(self.scene) {
            b"xmlns" => None,
            b"" => Some(self.default()),
            _ => self.of_prefix(name.prefix),
        }
    }

    fn of_attributes(&self, written: &[WrittenAttribute]) -> Option<Vec<Attribute>> {
        written
            .iter()
            .filter(|attribute| declared_prefix(self.scene, &attribute.name).is_none())
            .map(|attribute| self.of_attribute(attribute))
            .collect()
    }

    fn of_attribute(&self, written: &WrittenAttribute) -> Option<Attribute> {
        let prefixed = written.name.prefix != Span::ZERO;
        let namespace = if prefixed {
            self.of_prefix(written.name.prefix)?
        } else {
            Namespace::None
        };
        Some(Attribute {
            part: written.name.part,
            value: written.value,
            prefixed,
            namespace,
        })
    }

    fn default(&self) -> Namespace {
        match self.look_up(b"") {
            Some(uri) if uri.len > 0 => Namespace::Uri(uri),
            _ => Namespace::None,
        }
    }

    fn of_prefix(&self, prefix: Span) -> Option<Namespace> {
        match prefix.of(self.scene) {
            b"xml" => Some(Namespace::Xml),
            bytes => self.look_up(bytes).map(Namespace::Uri),
        }
    }

    /// The innermost declaration of a prefix, the tag's own counting.
    fn look_up(&self, prefix: &[u8]) -> Option<Span> {
        let inward = self.open.iter().chain(self.own);
        inward
            .rev()
            .find(|binding| binding.prefix.of(self.scene) == prefix)
            .map(|binding| binding.uri)
    }
}

/// Two attributes of one name as written, declarations counted.
fn written_twice(scene: &[u8], attributes: &[WrittenAttribute]) -> bool {
    let name = |attribute: &WrittenAttribute| attribute.name.whole.of(scene);
    any_pair(attributes, |one, other| name(one) == name(other))
}

/// Two attributes of one namespace and part.
fn same_twice(scene: &[u8], attributes: &[Attribute]) -> bool {
    any_pair(attributes, |one, other| {
        one.part.of(scene) == other.part.of(scene)
            && one.namespace.uri(scene) == other.namespace.uri(scene)
    })
}

fn any_pair<T>(list: &[T], equal: impl Fn(&T, &T) -> bool) -> bool {
    list.iter()
        .enumerate()
        .any(|(i, one)| list[..i].iter().any(|other| equal(one, other)))
}
