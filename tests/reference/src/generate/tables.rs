//! Rule tables, all accepted by judge.

use super::random::Random;
use crate::table::{
    Action, Rule, ANY, ATTRIBUTE_SECTION, ELEMENT_SECTION, RULES_AT_MOST, XML, XMLNS_URI,
};

/// What a table says before it is packed.
#[derive(Clone, Debug)]
pub struct Plan {
    pub namespaces: Vec<Vec<u8>>,
    pub modes: u8,
    pub schemas: u8,
    pub rules: Vec<Rule>,
}

/// A rule: mode, kind, class, action, schema, next mode.
pub fn rule(mode: u8, kind: u8, class: u8, action: Action, schema: u8, next_mode: u8) -> Rule {
    Rule {
        mode,
        kind,
        class,
        action,
        schema,
        next_mode,
    }
}

/// The bytes of a table.
pub fn pack(plan: &Plan) -> Vec<u8> {
    let mut bytes = vec![
        plan.namespaces.len() as u8,
        plan.modes,
        plan.schemas,
        plan.rules.len() as u8,
    ];
    for rule in &plan.rules {
        bytes.extend(rule.word().to_be_bytes());
    }
    for uri in &plan.namespaces {
        bytes.push(uri.len() as u8);
        bytes.extend(uri);
    }
    bytes
}

/// An accepted table; one in five is sparse.
pub fn table(random: &mut Random) -> Vec<u8> {
    match random.percent(20) {
        true => sparse_table(random),
        false => pack(&plan(random)),
    }
}

/// A table of a few rules that name their class, often without schemas: most sections meet no
/// rule.
pub fn sparse_table(random: &mut Random) -> Vec<u8> {
    let modes = *random.pick(&[1, 1, 2, 2, 3, 32]);
    let schemas = *random.pick(&[0, 0, 1, 2, 64]);
    let mut plan = Plan::without_rules(random, modes, schemas);
    for _ in 0..random.between(0, 7) {
        let some = plan.some_rule(random);
        if some.class != ANY || random.percent(15) {
            plan.add(some);
        }
    }
    pack(&plan)
}

/// A table that with an any rule for each mode and kind would have about 128 rules; some would
/// have more. Of most modes, kinds and classes it has only a few, against 23.
pub fn nearly_full_table(random: &mut Random) -> Vec<u8> {
    let modes = *random.pick(&[1, 2, 4, 8, 16, 31, 32, 32, 32]);
    let schemas = *random.pick(if modes < 16 { &[64] } else { &[0, 1, 2, 64] });
    let mut plan = Plan::without_rules(random, modes, schemas);
    let wanted = random.between(120, 132);
    for _ in 0..4000 {
        if plan.rules.len() + plan.lacking() >= wanted {
            break;
        }
        let mut some = plan.some_rule(random);
        if random.percent(60) {
            some.mode = random.below(modes as usize) as u8;
        }
        let seldom = if some.class == ANY { 10 } else { 100 };
        if random.percent(seldom) && (plan.alike(&some) < 3 || random.percent(2)) {
            plan.add(some);
        }
    }
    random.shuffle(&mut plan.rules);
    pack(&plan)
}

fn plan(random: &mut Random) -> Plan {
    let modes = *random.pick(&[1, 1, 2, 2, 2, 3, 3, 4, 32]);
    let schemas = *random.pick(&[0, 1, 1, 2, 2, 3, 3, 64]);
    let mut plan = Plan::without_rules(random, modes, schemas);
    if random.percent(90) {
        validate_root(random, &mut plan);
    }
    match random.below(4) {
        0 => some_rules(random, &mut plan, 8),
        1 => some_rules(random, &mut plan, 40),
        2 => rule_per_class(random, &mut plan),
        _ => branching(random, &mut plan),
    }
    if random.percent(4) {
        some_rules(random, &mut plan, 600);
    }
    if random.percent(30) {
        random.shuffle(&mut plan.rules);
    }
    plan
}

fn namespaces(random: &mut Random) -> Vec<Vec<u8>> {
    let count = *random.pick(&[0, 1, 1, 2, 2, 2, 3, 3, 4, 30]);
    let mut list: Vec<Vec<u8>> = Vec::new();
    while list.len() < count {
        let uri = namespace(random);
        if !list.contains(&uri) {
            list.push(uri);
        }
    }
    list
}

fn namespace(random: &mut Random) -> Vec<u8> {
    match random.below(40) {
        0 => vec![b'u'; 255],
        1 => XMLNS_URI.to_vec(),
        2 => vec![0xFF],
        3 => "\u{9AA8}".into(),
        4..=9 => format!("urn:{}", random.below(60)).into_bytes(),
        _ => vec![*random.pick(b"uvwPQ")],
    }
}

impl Plan {
    fn without_rules(random: &mut Random, modes: u8, schemas: u8) -> Plan {
        Plan {
            namespaces: namespaces(random),
            modes,
            schemas,
            rules: Vec::new(),
        }
    }

    /// For how many modes and kinds no rule names any.
    fn lacking(&self) -> usize {
        let has = |&(mode, kind): &(u8, u8)| {
            let any = |rule: &Rule| (rule.mode, rule.kind, rule.class) == (mode, kind, ANY);
            self.rules.iter().any(any)
        };
        let kinds = |mode| [(mode, ELEMENT_SECTION), (mode, ATTRIBUTE_SECTION)];
        let all = (0..self.modes).flat_map(kinds);
        all.filter(|pair| !has(pair)).count()
    }

    /// How many rules it has of the same mode, kind and class.
    fn alike(&self, rule: &Rule) -> usize {
        let key = |rule: &Rule| (rule.mode, rule.kind, rule.class);
        let alike = self.rules.iter().filter(|other| key(other) == key(rule));
        alike.count()
    }

    /// Adds a rule unless 12 would refuse it or there is no room.
    pub fn add(&mut self, rule: Rule) {
        let key = |rule: &Rule| (rule.mode, rule.kind, rule.class);
        let keeps = rule.action != Action::Validate;
        let clashes = self.rules.iter().any(|other| {
            *other == rule || keeps && other.action != Action::Validate && key(other) == key(&rule)
        });
        if !clashes && self.rules.len() < RULES_AT_MOST {
            self.rules.push(rule);
        }
    }

    fn class(&self, random: &mut Random) -> u8 {
        match random.below(10) {
            0 => 0,
            1 => XML,
            2..=4 => ANY,
            _ => random.between(1.min(self.namespaces.len()), self.namespaces.len()) as u8,
        }
    }

    fn mode(&self, random: &mut Random) -> u8 {
        random
            .below(self.modes as usize)
            .min(random.below(self.modes as usize)) as u8
    }

    fn some_rule(&self, random: &mut Random) -> Rule {
        let action = *random.pick(&[Action::Attach, Action::Unwrap, Action::Validate]);
        let action = if self.schemas == 0 && action == Action::Validate {
            Action::Attach
        } else {
            action
        };
        let schema = match action {
            Action::Validate => random.below(self.schemas as usize) as u8,
            _ => 0,
        };
        let kind = random.percent(40) as u8;
        let class = self.class(random);
        rule(
            self.mode(random),
            kind,
            class,
            action,
            schema,
            self.mode(random),
        )
    }
}

fn validate_root(random: &mut Random, plan: &mut Plan) {
    if plan.schemas == 0 {
        return;
    }
    let class = if random.percent(50) {
        ANY
    } else {
        plan.class(random)
    };
    let next = plan.mode(random);
    let schema = random.below(plan.schemas as usize) as u8;
    plan.add(rule(
        0,
        ELEMENT_SECTION,
        class,
        Action::Validate,
        schema,
        next,
    ));
}

fn some_rules(random: &mut Random, plan: &mut Plan, at_most: usize) {
    for _ in 0..random.between(0, at_most) {
        let rule = plan.some_rule(random);
        plan.add(rule);
    }
}

/// For every mode, kind and class about one rule.
fn rule_per_class(random: &mut Random, plan: &mut Plan) {
    for class in classes(plan) {
        for kind in [ELEMENT_SECTION, ATTRIBUTE_SECTION] {
            for mode in 0..plan.modes {
                if random.percent(80) {
                    let some = plan.some_rule(random);
                    plan.add(Rule {
                        mode,
                        kind,
                        class,
                        ..some
                    });
                }
            }
        }
    }
}

/// Validate and attach for some classes, as in T2: strands double at their sections.
fn branching(random: &mut Random, plan: &mut Plan) {
    let classes = classes(plan);
    for class in classes {
        for kind in [ELEMENT_SECTION, ATTRIBUTE_SECTION] {
            if random.percent(55) {
                let mode = plan.mode(random);
                let next = plan.mode(random);
                plan.add(rule(mode, kind, class, Action::Attach, 0, next));
                for _ in 0..random.between(0, 2) {
                    let schema = random.below((plan.schemas as usize).max(1)) as u8;
                    if plan.schemas > 0 {
                        plan.add(rule(mode, kind, class, Action::Validate, schema, next));
                    }
                }
            }
        }
    }
    some_rules(random, plan, 6);
}

fn classes(plan: &Plan) -> Vec<u8> {
    let listed = 1..=plan.namespaces.len() as u8;
    listed.chain([0, XML, ANY]).collect()
}

/// A table and a scene of many attribute units: 127 for each attribute section, so that some
/// forty elements of 16 sections reach 24. The root opens unit 0 and children in a namespace of
/// their own one unit each; `sections` says how many attribute sections each child has.
pub fn many_units(sections: &[usize]) -> (Vec<u8>, Vec<u8>) {
    let root = rule(0, ELEMENT_SECTION, ANY, Action::Validate, 0, 0);
    (many_rules(vec![root]), many_sections(sections))
}

/// The same without a rule for elements: the root and the children in a namespace of their own
/// are rejected.
pub fn many_rejects(sections: &[usize]) -> (Vec<u8>, Vec<u8>) {
    (many_rules(Vec::new()), many_sections(sections))
}

fn many_rules(rules: Vec<Rule>) -> Vec<u8> {
    let mut plan = Plan {
        namespaces: Vec::new(),
        modes: 2,
        schemas: 64,
        rules,
    };
    for number in 0..127 {
        let (schema, next) = (number % 64, number / 64);
        plan.add(rule(
            0,
            ATTRIBUTE_SECTION,
            ANY,
            Action::Validate,
            schema,
            next,
        ));
    }
    pack(&plan)
}

fn many_sections(sections: &[usize]) -> Vec<u8> {
    let prefix = |number: usize| (b'a' + number as u8) as char;
    let mut scene = String::from("<r");
    for number in 0..16 {
        scene.push_str(&format!(" xmlns:{0}='{0}'", prefix(number)));
    }
    scene.push('>');
    for &count in sections {
        scene.push_str(if count == 0 { "<x xmlns='z'" } else { "<x" });
        for number in 0..count {
            scene.push_str(&format!(" {}:n=''", prefix(number)));
        }
        scene.push_str("/>");
    }
    scene.push_str("</r>");
    scene.into_bytes()
}
