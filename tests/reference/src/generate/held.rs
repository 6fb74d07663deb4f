//! The things that a session holds, as decision N6-4 lists them, each changed by itself.

use crate::session::{Binding, Level, Session, Strand};
use crate::span::Span;
use crate::table::Action;

/// Changes one thing of the session that it was made for.
pub type Change = Box<dyn Fn(&mut Session)>;

const STRAND: Strand = Strand {
    mode: 0,
    action: Action::Unwrap,
    target: None,
    opened_here: false,
};

/// Every thing by its name, with a change of it alone: of every binding, level and strand.
pub fn held_things(session: &Session) -> Vec<(&'static str, Change)> {
    let mut things = Things(Vec::new());
    things.add("place", |s| s.place ^= 1);
    things.add("units", |s| s.units ^= 1);
    things.add("closed", |s| s.closed ^= true);
    things.add("awaited", |s| s.awaited ^= true);
    things.list("bindings", &session.bindings, binding(), |s| {
        &mut s.bindings
    });
    things.list("levels", &session.levels, level(), |s| &mut s.levels);
    for index in 0..session.bindings.len() {
        things.span("prefix", move |s| &mut s.bindings[index].prefix);
        things.span("binding's uri", move |s| &mut s.bindings[index].uri);
    }
    for (index, level) in session.levels.iter().enumerate() {
        things.level(index, level);
    }
    things.0
}

fn binding() -> Binding {
    let (prefix, uri) = (Span::ZERO, Span::ZERO);
    Binding { prefix, uri }
}

fn level() -> Level {
    Level {
        name: Span::ZERO,
        class: 0,
        uri: Span::ZERO,
        bindings: 0,
        strands: vec![STRAND],
    }
}

struct Things(Vec<(&'static str, Change)>);

impl Things {
    fn add(&mut self, name: &'static str, change: impl Fn(&mut Session) + 'static) {
        self.0.push((name, Box::new(change)));
    }

    /// One more, one less, the order.
    fn list<T: Clone + PartialEq + 'static>(
        &mut self,
        name: &'static str,
        members: &[T],
        another: T,
        of: impl Fn(&mut Session) -> &mut Vec<T> + Copy + 'static,
    ) {
        self.add(name, move |s| of(s).push(another.clone()));
        for index in 0..members.len() {
            self.add(name, move |s| drop(of(s).remove(index)));
            if index > 0 && members[index] != members[index - 1] {
                self.add(name, move |s| of(s).swap(index, index - 1));
            }
        }
    }

    /// Offset and length.
    fn span(
        &mut self,
        name: &'static str,
        of: impl Fn(&mut Session) -> &mut Span + Copy + 'static,
    ) {
        self.add(name, move |s| of(s).at ^= 1);
        self.add(name, move |s| of(s).len ^= 1);
    }

    fn level(&mut self, index: usize, level: &Level) {
        self.span("level's name", move |s| &mut s.levels[index].name);
        self.add("class", move |s| s.levels[index].class ^= 1);
        self.span("level's uri", move |s| &mut s.levels[index].uri);
        self.add("level's bindings", move |s| s.levels[index].bindings ^= 1);
        self.list("strands", &level.strands, STRAND, move |s| {
            &mut s.levels[index].strands
        });
        for (number, strand) in level.strands.iter().enumerate() {
            self.strand(strand, move |s| &mut s.levels[index].strands[number]);
        }
    }

    fn strand(
        &mut self,
        strand: &Strand,
        of: impl Fn(&mut Session) -> &mut Strand + Copy + 'static,
    ) {
        self.add("mode", move |s| of(s).mode ^= 1);
        self.add("opened here", move |s| of(s).opened_here ^= true);
        for action in [Action::Attach, Action::Unwrap, Action::Validate] {
            if action != strand.action {
                self.add("action", move |s| of(s).action = action);
            }
        }
        match strand.target {
            Some(target) => {
                self.add("target", move |s| of(s).target = Some(target ^ 1));
                self.add("target or none", move |s| of(s).target = None);
            }
            None => self.add("target or none", move |s| of(s).target = Some(0)),
        }
    }
}
