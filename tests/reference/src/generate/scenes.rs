//! Scenes that the reader accepts whole; they may meet the limits 21 to 24.

use super::miscs;
use super::random::Random;
use super::scripts;
use crate::table;

const PREFIXES: [&str; 16] = [
    "p",
    "q",
    "s",
    "t",
    "x1",
    "y-",
    "z.",
    "_a",
    "_b",
    "Xml",
    "xmln",
    "pp",
    "\u{3C0}",
    "\u{9AA8}",
    "e\u{301}",
    "\u{10400}",
];
const UNLISTED: [&str; 8] = [
    "n1",
    "n2",
    "u/",
    "U",
    " u ",
    "http://www.w3.org/XML/1998/",
    "\u{9AA8}",
    "\u{E9}\u{A0}",
];
const ATTRIBUTES_AT_MOST: usize = 16;

/// What a scene is like.
#[derive(Clone, Debug)]
pub struct Profile {
    /// Elements at most.
    pub elements: usize,
    /// Depth at most, and how often an element above it has another one inside.
    pub depth: usize,
    pub deeper: usize,
    /// Children at most.
    pub children: usize,
    /// Attributes at most, without those that are needed, and how often one has a prefix.
    pub attributes: usize,
    pub prefixed: usize,
    /// Declarations at most that no name of the tag needs.
    pub declarations: usize,
    /// How often a child has its parent's namespace, and how often one is declared anew.
    pub same: usize,
    pub declared_anew: usize,
    /// How often a name has 64 bytes.
    pub long: usize,
    pub text: usize,
    /// How often a misc stands where one may.
    pub misc: usize,
    /// How often a name, or a character of text, is of another script.
    pub scripts: usize,
}

const PLAIN: Profile = Profile {
    elements: 40,
    depth: 8,
    deeper: 70,
    children: 5,
    attributes: 3,
    prefixed: 60,
    declarations: 1,
    same: 45,
    declared_anew: 25,
    long: 1,
    text: 40,
    misc: 12,
    scripts: 15,
};

impl Profile {
    pub fn some(random: &mut Random) -> Profile {
        match random.below(11) {
            0 => deep(random),
            1 => wide(random),
            2 => binding(random),
            3 => branching(),
            4 => attributed(),
            5 => long_named(),
            6 => small(),
            7 => in_other_scripts(),
            _ => PLAIN,
        }
    }
}

fn deep(random: &mut Random) -> Profile {
    Profile {
        elements: 90,
        depth: random.between(60, 70),
        deeper: 100,
        children: 1,
        attributes: 1,
        declarations: 0,
        same: *random.pick(&[20, 60, 95]),
        declared_anew: 5,
        text: 10,
        ..PLAIN
    }
}

fn wide(random: &mut Random) -> Profile {
    Profile {
        elements: random.between(50, 200),
        depth: 3,
        deeper: 95,
        children: 120,
        ..PLAIN
    }
}

fn binding(random: &mut Random) -> Profile {
    Profile {
        depth: random.between(6, 16),
        deeper: 100,
        children: 2,
        declarations: random.between(8, 24),
        ..PLAIN
    }
}

fn branching() -> Profile {
    Profile {
        elements: 60,
        depth: 14,
        deeper: 95,
        children: 2,
        same: 10,
        ..PLAIN
    }
}

fn attributed() -> Profile {
    Profile {
        attributes: 14,
        prefixed: 85,
        declarations: 4,
        ..PLAIN
    }
}

fn long_named() -> Profile {
    Profile { long: 40, ..PLAIN }
}

fn in_other_scripts() -> Profile {
    Profile {
        long: 10,
        text: 60,
        misc: 20,
        scripts: 80,
        ..PLAIN
    }
}

fn small() -> Profile {
    Profile {
        elements: 4,
        depth: 3,
        ..PLAIN
    }
}

/// A scene whose namespaces are the table's and some others.
pub fn scene(random: &mut Random, table: &[u8]) -> Vec<u8> {
    let profile = Profile::some(random);
    scene_of(random, table, &profile)
}

pub fn scene_of(random: &mut Random, table: &[u8], profile: &Profile) -> Vec<u8> {
    let mut writer = Writer {
        uris: uris(random, table),
        random,
        profile,
        scene: Vec::new(),
        scope: Vec::new(),
        elements: 0,
    };
    writer.declaration();
    writer.outside_root();
    writer.element(1, b"");
    writer.outside_root();
    writer.scene
}

/// The URIs that a scene may use: listed ones often, none and unlisted ones.
fn uris(random: &mut Random, table: &[u8]) -> Vec<Vec<u8>> {
    let mut uris = vec![Vec::new(), random.pick(&UNLISTED).as_bytes().to_vec()];
    if random.percent(50) {
        uris.push(random.pick(&UNLISTED).as_bytes().to_vec());
    }
    if let Ok(table) = table::read(table) {
        let listed = (1..=table.namespaces()).filter_map(|class| table.listed_uri(class));
        let usable: Vec<&[u8]> = listed.filter(|uri| can_stand(uri)).collect();
        for uri in &usable {
            uris.push(uri.to_vec());
            uris.push(uri.to_vec());
        }
    }
    uris
}

/// Whether a scene may declare a listed URI.
fn can_stand(uri: &[u8]) -> bool {
    uri != table::XMLNS_URI && std::str::from_utf8(uri).is_ok()
}

/// A declaration in force: prefix (empty for the default) and URI.
#[derive(Clone)]
struct Bound {
    prefix: Vec<u8>,
    uri: Vec<u8>,
}

/// A tag being put together.
#[derive(Default)]
struct Tag {
    name: Vec<u8>,
    /// Names and values as written.
    attributes: Vec<(Vec<u8>, Vec<u8>)>,
    declared: Vec<Bound>,
    /// Prefixes used with an outer declaration, which the tag must not declare.
    used: Vec<Vec<u8>>,
}

impl Tag {
    fn full(&self) -> bool {
        self.attributes.len() >= ATTRIBUTES_AT_MOST
    }

    fn free(&self, prefix: &[u8]) -> bool {
        !self.used.iter().any(|used| used == prefix)
            && !self.declared.iter().any(|bound| bound.prefix == prefix)
    }

    fn declare(&mut self, prefix: &[u8], uri: &[u8]) {
        let name = match prefix {
            b"" => b"xmlns".to_vec(),
            _ => [b"xmlns:", prefix].concat(),
        };
        self.attributes.push((name, uri.to_vec()));
        self.declared.push(Bound {
            prefix: prefix.to_vec(),
            uri: uri.to_vec(),
        });
    }
}

struct Writer<'a> {
    random: &'a mut Random,
    profile: &'a Profile,
    uris: Vec<Vec<u8>>,
    scene: Vec<u8>,
    scope: Vec<Bound>,
    elements: usize,
}

impl Writer<'_> {
    fn element(&mut self, depth: usize, outer: &[u8]) {
        self.elements += 1;
        let uri = self.namespace(outer);
        let tag = self.tag(&uri);
        let bound = self.scope.len();
        self.scope.extend(tag.declared.iter().cloned());
        let childless = depth >= self.profile.depth || !self.random.percent(self.profile.deeper);
        let empty = childless && self.random.percent(50);
        self.start_tag(&tag, empty);
        if !empty {
            self.content(depth, &uri, childless);
            self.end_tag(&tag.name);
        }
        self.scope.truncate(bound);
    }

    fn namespace(&mut self, outer: &[u8]) -> Vec<u8> {
        if self.elements > 1 && self.random.percent(self.profile.same) {
            return outer.to_vec();
        }
        if self.random.percent(3) {
            return table::XML_URI.to_vec();
        }
        self.random.pick(&self.uris).clone()
    }

    fn tag(&mut self, uri: &[u8]) -> Tag {
        let mut tag = Tag::default();
        let prefix = self.prefix(&mut tag, uri, true).unwrap_or_default();
        tag.name = self.name(&prefix, b"rabxyz");
        self.attributes(&mut tag, uri);
        self.declarations(&mut tag);
        self.random.shuffle(&mut tag.attributes);
        tag
    }

    /// A prefix that means this URI in the tag; the empty one is the default, which only an
    /// element can use. None if there is no room for a declaration.
    fn prefix(&mut self, tag: &mut Tag, uri: &[u8], element: bool) -> Option<Vec<u8>> {
        if uri == table::XML_URI {
            return Some(b"xml".to_vec());
        }
        let known = self.known(tag, uri, element);
        let anew = self.random.percent(self.profile.declared_anew);
        if !known.is_empty() && (!anew || uri.is_empty()) {
            let prefix = self.random.pick(&known).clone();
            tag.used.push(prefix.clone());
            return Some(prefix);
        }
        self.declared(tag, uri, element)
    }

    /// The prefixes that mean this URI already.
    fn known(&self, tag: &Tag, uri: &[u8], element: bool) -> Vec<Vec<u8>> {
        let bounds: Vec<&Bound> = self.scope.iter().chain(&tag.declared).collect();
        let hidden = |at: usize| {
            let prefix = &bounds[at].prefix;
            bounds[at + 1..].iter().any(|inner| inner.prefix == *prefix)
        };
        let mut known: Vec<Vec<u8>> = (0..bounds.len())
            .filter(|&at| bounds[at].uri == uri && (element || !bounds[at].prefix.is_empty()))
            .filter(|&at| !hidden(at))
            .map(|at| bounds[at].prefix.clone())
            .collect();
        let no_default = bounds.iter().all(|bound| !bound.prefix.is_empty());
        if element && uri.is_empty() && no_default {
            known.push(Vec::new());
        }
        known
    }

    fn declared(&mut self, tag: &mut Tag, uri: &[u8], element: bool) -> Option<Vec<u8>> {
        let default = element && (uri.is_empty() || self.random.percent(50));
        let prefix = match default {
            true => Vec::new(),
            false => self.new_prefix(),
        };
        if tag.full() || !tag.free(&prefix) {
            return None;
        }
        tag.declare(&prefix, uri);
        Some(prefix)
    }

    /// Mostly one of a few, so that they hide each other.
    fn new_prefix(&mut self) -> Vec<u8> {
        if self.random.percent(self.profile.declarations.min(9) * 10) {
            return format!("d{}", self.random.below(30)).into_bytes();
        }
        self.random.pick(&PREFIXES).as_bytes().to_vec()
    }

    fn attributes(&mut self, tag: &mut Tag, own: &[u8]) {
        let mut taken: Vec<(Vec<u8>, Vec<u8>)> = Vec::new();
        for _ in 0..self.random.between(0, self.profile.attributes) {
            let uri = self.attribute_namespace(own);
            let prefix = match &uri[..] {
                b"" => Some(Vec::new()),
                uri => self.prefix(tag, uri, false),
            };
            let Some(prefix) = prefix else { continue };
            let name = self.name(&prefix, b"abcdefgh");
            let part = name[name.iter().position(|&b| b == b':').map_or(0, |c| c + 1)..].to_vec();
            if tag.full() || taken.contains(&(uri.clone(), part.clone())) {
                continue;
            }
            taken.push((uri, part));
            let value = self.characters(6);
            tag.attributes.push((name, value));
        }
    }

    fn attribute_namespace(&mut self, own: &[u8]) -> Vec<u8> {
        if !self.random.percent(self.profile.prefixed) {
            return Vec::new();
        }
        match self.random.below(10) {
            0 => table::XML_URI.to_vec(),
            1 | 2 => own.to_vec(),
            _ => self.random.pick(&self.uris).clone(),
        }
    }

    /// Declarations that nothing needs, of the default too.
    fn declarations(&mut self, tag: &mut Tag) {
        for _ in 0..self.random.between(0, self.profile.declarations) {
            let uri = self.random.pick(&self.uris).clone();
            self.declared(tag, &uri, true);
        }
    }

    fn name(&mut self, prefix: &[u8], letters: &[u8]) -> Vec<u8> {
        let part = self.part(letters);
        match prefix {
            b"" => part,
            _ => [prefix, b":", &part].concat(),
        }
    }

    fn part(&mut self, letters: &[u8]) -> Vec<u8> {
        let scripts = self.random.percent(self.profile.scripts);
        if self.random.percent(self.profile.long) {
            let length = self.random.between(62, 64);
            return match scripts {
                true => scripts::part_of_length(self.random, length),
                false => self.long_part(letters, length),
            };
        }
        match scripts {
            true => scripts::part(self.random),
            false => vec![*self.random.pick(letters)],
        }
    }

    fn long_part(&mut self, letters: &[u8], length: usize) -> Vec<u8> {
        let mut part = vec![*self.random.pick(letters)];
        while part.len() < length {
            part.push(*self.random.pick(b"azAZ_09-."));
        }
        part
    }

    fn start_tag(&mut self, tag: &Tag, empty: bool) {
        self.scene.push(b'<');
        self.scene.extend(&tag.name);
        for (name, value) in &tag.attributes {
            self.some_space();
            self.scene.extend(name);
            self.space(5);
            self.scene.push(b'=');
            self.space(5);
            self.value(value);
        }
        self.space(10);
        self.scene.extend(if empty { &b"/>"[..] } else { b">" });
    }

    fn value(&mut self, value: &[u8]) {
        let quote = *self.random.pick(b"\"'");
        let quote = match value.contains(&quote) {
            true => b'"' + b'\'' - quote,
            false => quote,
        };
        self.scene.push(quote);
        self.scene.extend(value);
        self.scene.push(quote);
    }

    fn end_tag(&mut self, name: &[u8]) {
        self.scene.extend(b"</");
        self.scene.extend(name);
        self.space(10);
        self.scene.push(b'>');
    }

    /// At the scene's first byte.
    fn declaration(&mut self) {
        if self.random.percent(self.profile.misc) {
            self.scene = miscs::declaration(self.random);
        }
    }

    fn outside_root(&mut self) {
        self.space(30);
        while self.random.percent(self.profile.misc) {
            self.scene.extend(miscs::misc(self.random));
            self.space(30);
        }
    }

    fn content(&mut self, depth: usize, uri: &[u8], childless: bool) {
        self.texts();
        if childless {
            return;
        }
        for _ in 0..self.random.between(1, self.profile.children) {
            if self.elements < self.profile.elements {
                self.element(depth + 1, uri);
                self.texts();
            }
        }
    }

    /// A text, and more of them with misc in between.
    fn texts(&mut self) {
        self.text();
        while self.random.percent(self.profile.misc) {
            self.scene.extend(miscs::misc(self.random));
            self.text();
        }
    }

    /// Without ]]>, which only values may hold.
    fn text(&mut self) {
        if self.random.percent(self.profile.text) {
            let mut text = self.characters(8);
            while let Some(at) = text.windows(3).position(|three| three == b"]]>") {
                text.remove(at);
            }
            self.scene.extend(text);
        }
    }

    /// What text, and a value in one of the quotes, may hold.
    fn characters(&mut self, at_most: usize) -> Vec<u8> {
        let without = *self.random.pick(b"\"'");
        let mut list = Vec::new();
        for _ in 0..self.random.between(0, at_most) {
            if self.random.percent(self.profile.scripts) {
                list.extend(scripts::character(self.random));
                continue;
            }
            match self.random.below(9) {
                0 => list.extend(*self.random.pick(&[
                    &b"&lt;"[..],
                    b"&gt;",
                    b"&amp;",
                    b"&quot;",
                    b"&apos;",
                ])),
                1 => list.push(*self.random.pick(b" \t\n\r")),
                2 => list.push(*self.random.pick(b">]=/;:\x7F!?#\"'")),
                3 => list.extend(*self.random.pick(&[
                    &b"]]>"[..],
                    b"]]",
                    b"]>",
                    b"--",
                    b"-->",
                    b"?>",
                ])),
                _ => list.push(*self.random.pick(b"abcxyz019")),
            }
        }
        list.retain(|&byte| byte != without);
        list
    }

    fn some_space(&mut self) {
        self.scene.push(*self.random.pick(b"    \t\n\r"));
        self.space(5);
    }

    fn space(&mut self, percent: usize) {
        while self.random.percent(percent) {
            self.scene.push(*self.random.pick(b" \t\n\r"));
        }
    }
}
