//! N4: names and text in UTF-8; and the vectors of page N5, which N4's sets decide.

use crate::common::*;
use reference::generate::form_of;
use reference::{coherent, forecast, judge, run, session_after, step, Session, Span};

/// The decisions' own examples, and more where a decision has none: decision, |scene|, number@place.
const DECISIONS: &str = r#"
N4-1 |<\xC3\xA9/>| 9@5
N4-1 |<a\xC3\xA9-\xE9\xAA\xA8.\xF0\x90\x90\x80/>| 9@15
N4-1 |<\xE9\xAA\xA8:\xCF\x80 xmlns:\xE9\xAA\xA8='u'/>| 9@23
N4-1 |<\xC3\xA9:\xC3\xA9:\xC3\xA9/>| 2@6
N4-2 |<r a='\xC2\x80\xEF\xB7\x90\xEF\xBB\xBF\xF0\x9F\xBF\xBE'/>| 9@21
N4-2 |<r a='\xEF\xBF\xBE'/>| 2@8
N4-2 |<r a='\xED\xBF\xBF'/>| 2@7
N4-2 |<r xmlns='\xEF\xBF\xBF'/>| 2@12
N4-2 |<r xmlns:p='\xC3\xA9' p:a=''/>| 9@24
N4-2 |<r>\xC2\x9F\x7F\xE2\x80\xA8</r>| 9@13
N4-2 |<r>\x0C</r>| 2@3
N4-3 |<!--\xFF--><r/>| 2@4
N4-3 |<!--\xE3\x81\x82--><r/>| 9@14
N4-3 |<!--\xEF\xBF\xBF--><r/>| 2@6
N4-3 |<!--\xC3| 1@5
N4-3 |<!--\xC3-| 2@5
N4-3 |<?p \xE3\x81\x82?><r/>| 9@13
N4-3 |<?p \x80?><r/>| 2@4
N4-3 |<?p \xF0\x90\x80| 1@7
N4-3 |<?\xE9\xAA\xA8?><r/>| 9@11
N4-3 |<?\xC2\xB7?><r/>| 2@2
N4-3 |<?\xC3\x97?><r/>| 2@3
N4-4 |\xC2\x85<r/>| 2@0
N4-4 |<r\xC2\xA0a=''/>| 2@3
N4-4 |<r\xE3\x80\x80/>| 2@4
N4-4 |<r \xE2\x80\xA8a=''/>| 2@5
N4-4 |<r>\xF7\xBF\xBF\xBF</r>| 2@3
N4-4 |<r>\xF0\x82\x82\xAC</r>| 2@4
N4-5 |<r>\xC0</r>| 2@3
N4-5 |<r>\xC1</r>| 2@3
N4-5 |<r>\xF5</r>| 2@3
N4-5 |<r>\xFF</r>| 2@3
N4-5 |<r>\xBF</r>| 2@3
N4-5 |<r>\xE0\x9F</r>| 2@4
N4-5 |<r>\xF0\x80</r>| 2@4
N4-5 |<r>\xF0\x8F</r>| 2@4
N4-5 |<r>\xED\xBF</r>| 2@4
N4-5 |<r>\xF4\x90</r>| 2@4
N4-5 |<r>\xF4\xBF</r>| 2@4
N4-5 |<r>\xEF\xBF\xBE</r>| 2@5
N4-5 |<r>\xEF\xBF\xBF</r>| 2@5
N4-5 |<r>\xF0\x9F\xBF\xC0</r>| 2@6
N4-6 |<a\xC2\xB7/>| 9@6
N4-6 |<\xC2\xB7/>| 2@1
N4-6 |<a\xC2\xB8/>| 2@3
N4-6 |<a\xC3\x97/>| 2@3
N4-6 |<\xC3\x97/>| 2@2
N4-6 |<\xCC\x80/>| 2@1
N4-6 |<\xE3\x80\x80/>| 2@3
N4-6 |<a\xEE\x80\x80/>| 2@2
N4-6 |<r \xCC\x80=''/>| 2@3
N4-6 |<r a\xCC\x80=''/>| 9@11
N4-6 |<p:\xCC\x80/>| 2@3
N4-6 |<r></\xCC\x80>| 2@5
N4-6 |<r></r\xCC\x80>| 4@3
N4-7 |<r>\xE3\x81</r>| 2@5
N4-7 |<r a='\xC3'/>| 2@7
N4-7 |<a\xC3/>| 2@3
N4-7 |<a\xC3 b=''/>| 2@3
N4-7 |<a\xC3:b/>| 2@3
N4-7 |<r a='\xC3\x20'/>| 2@7
N4-7 |<r>\xE3>| 2@4
N4-7 |<r>\xE3&amp;| 2@4
N4-7 |<r>ab\xF0\x90<x/>| 2@7
N4-7 |<r a\xC3=''/>| 2@5
N4-7 |<r></r\xC3>| 2@7
N4-8 |<r>\xE3\x81| 1@5
N4-8 |<r>\xE0\x80| 2@4
N4-8 |<\xE3| 1@2
N4-8 |<r>\xEF\xBF| 1@5
N4-8 |<\xEF\xBF| 1@3
N4-8 |<a\xEE| 2@2
N4-8 |<r></\xC3| 1@6
N4-8 |<r \xC3| 1@4
N4-8 |<?\xF0\x90| 1@4
N4-9 |\xEF\xBB\xBF<r/>| 2@0
N4-9 |<r>&\xE3\x81\x82;</r>| 2@4
N4-9 |<r/>\xE3| 2@4
N4-9 |\xE3| 2@0
N4-9 |<r/><\xC3\xA9/>| 2@5
N4-9 |<!\xC3| 2@2
N4-9 |<r>&l\xC3| 2@5
N4-9 |<r a\xC3\xA9=\xC3| 2@7
N4-9 |<r a=''\xC3| 2@7
N4-9 |<r/\xC3| 2@3
N4-9 |<?xml version='1.\xC3| 2@17
N4-9 |<?xml version='1.0' encoding='\xC3| 2@30
N4-9 |<?xml version='1.0' \xC3| 2@20
N4-9 |<?p?\xC3| 2@4
N4-10 |<{64:n}\xC3| 3@65
N4-10 |<{64:n}\xCC\x80/>| 3@65
N4-10 |<{64:n}\xC0/>| 2@65
N4-10 |<{64:n}\xFF/>| 2@65
N4-10 |<{61:n}\xF0\x90\x80| 1@65
N4-10 |<{61:n}\xF0\x90\x80\x80/>| 3@65
N4-10 |<{61:n}\xF0\x90\x80\xC0/>| 2@65
N4-10 |<{61:n}\xF3\xAF\xBF/>| 2@65
N4-10 |<{63:n}\xE3\x81\x82/>| 3@65
N4-10 |<{63:n}\xE3/>| 2@65
N4-10 |<{63:n}\xE0\x80/>| 2@65
N4-10 |<{16:\xF0\x90\x80\x80}/>| 9@67
N4-10 |<{16:\xF0\x90\x80\x80}\xC2| 3@65
N4-10 |<{16:\xF0\x90\x80\x80}\x80| 2@65
N4-10 |<r {63:n}\xC3\xA9=''/>| 3@67
N4-10 |<r xmlns:{63:n}\xC3\xA9=''/>| 3@73
N4-10 |<{63:n}\xC3\xA9:a/>| 3@65
N4-10 |<r></{62:n}\xC3\xA9>| 4@3
N4-12 |<r><?xml\xC3| 1@9
N4-12 |<r><?xml\xC3\x97?></r>| 2@9
N4-12 |<r><?xml\xC3?></r>| 2@9
N4-12 |<r><?xml\xC3\xA9?></r>| 9@16
N4-12 |<r><?xml\xC2\xA0?></r>| 2@9
N4-12 |<r><?xml\x97| 2@5
N4-12 |<?xml\xC3\x97| 2@6
N4-12 |<?xml\x97| 2@5
N4-12 |<?xml\xC3\xA9?><r/>| 9@13
N4-12 |<?xml\xC3| 1@6
N4-12 |<?XML\xC2\xB7?><r/>| 9@13
N4-12 |<r><?XmL\xEE\x80\x80?></r>| 2@5
N4-12 |<?XML\x80| 2@2
N4-16 |<\xC3\xA9></e\xCC\x81>| 4@4
N4-16 |<\xC3\xA9></\xC3\xA9>| 9@9
N4-16 |<r \xC3\xA9='' e\xCC\x81=''/>| 9@17
N4-16 |<r \xC3\xA9='' \xC3\xA9=''/>| 6@0
N4-16 |<r xmlns:p='\xC3\xA9' xmlns:q='e\xCC\x81' p:a='' q:a=''/>| 9@45
N4-16 |<r xmlns:p='\xC3\xA9' xmlns:q='\xC3\xA9' p:a='' q:a=''/>| 6@0
N4-16 |<r xml\xC5\x84s='a&amp;b'/>| 9@21
N4-16 |<r \xEF\xBD\x98ml:a=''/>| 5@0
N4-17 |<r>\xF0\x90\x80\x80\x00</r>| 2@7
"#;

/// The page's vectors as they stand there, and its table.
const VECTORS: &str = r#"
# names, values, texts in other scripts
K |<\xE9\xAA\xA8 \xCF\x80='\xC3\xA9'>\xE3\x81\xB2<\xF0\x90\x90\x80/></\xE9\xAA\xA8>| - | 9 29 5 9
    0 0 0 0 0 0 0
    0 1 0 1 3 0 0
    0 2 0 5 2 0 0
    0 3 0 9 2 0 0
    0 4 0 13 3 0 0
    0 1 0 17 4 0 0
    0 5 0 17 4 0 0
    0 5 0 25 3 0 0
    0 6 0 0 0 0 0
K |<\xCF\x80:\xC3\xA9 xmlns:\xCF\x80='\xE9\xAA\xA8'/>| - | 9 23 2 4
    0 0 0 0 0 0 0
    0 1 255 4 2 17 3
    0 5 255 4 2 17 3
    0 6 0 0 0 0 0
K |<\xE9\xAA\xA8\xC2\xB7\xCC\x81-1.></\xE9\xAA\xA8\xC2\xB7\xCC\x81-1.>| - | 9 25 2 4
K |<\xEF\xBB\xBFa/>| - | 9 7 2 4
K |<a\xEF\xB7\x90/>| - | 2 4 0 0
K |<a\xF3\xAF\xBF\xBF/>| - | 9 8 2 4
K |<a\xF3\xB0\x80\x80/>| - | 2 3 0 0
K |<:\xC3\xA9/>| - | 2 1 0 0
K |<a:\xC2\xB7/>| - | 2 3 0 0
K |<r \xC2\xB7=''/>| - | 2 3 0 0
# text
K |<r>\xC2\x80\x7F\xC2\x85\xEF\xB7\x90\xEF\xBB\xBF\xEF\xBF\xBD\xF0\x9F\xBF\xBE\xF4\x8F\xBF\xBF</r>| - | 9 29 3 5
K |<r>\x80</r>| - | 2 3 1 2
K |<r>\xC0\x80</r>| - | 2 3 1 2
K |<r>\xC1\xBF</r>| - | 2 3 1 2
K |<r>\xE0\x9F\xBF</r>| - | 2 4 1 2
K |<r>\xE0\xA0\x80</r>| - | 9 10 3 5
K |<r>\xED\x9F\xBF</r>| - | 9 10 3 5
K |<r>\xED\xA0\x80</r>| - | 2 4 1 2
K |<r>\xEE\x80\x80</r>| - | 9 10 3 5
K |<r>\xEF\xBF\xBE</r>| - | 2 5 1 2
K |<r>\xEF\xBF\xBF</r>| - | 2 5 1 2
K |<r>\xF0\x8F\xBF\xBF</r>| - | 2 4 1 2
K |<r>\xF0\x90\x80\x80</r>| - | 9 11 3 5
K |<r>\xF4\x90\x80\x80</r>| - | 2 4 1 2
K |<r>\xF5\x80\x80\x80</r>| - | 2 3 1 2
K |<r>\xC3&lt;</r>| - | 2 4 1 2
K |<r>]]\xC3></r>| - | 2 6 1 2
K |<r>\xF0\x90\x80| - | 1 6 1 2
# values, comments, instructions
K |<r a="\xC3"/>| - | 2 7 0 0
K |<r xmlns="\xFF"/>| - | 2 10 0 0
K |<r a='\xE3\x81| - | 1 8 0 0
K |<r><!--\xC3--></r>| - | 2 8 1 2
K |<r><!--a-\xC3-></r>| - | 2 10 1 2
K |<r><!--a--\xC3| - | 2 10 1 2
K |<r><?\xE9\xAA\xA8 \xC3\xA9?></r>| - | 9 17 2 4
K |<r><?p \xED\xA0\x80?></r>| - | 2 8 1 2
K |<r><?p\xC3\x97?></r>| - | 2 7 1 2
K |<r><?p \xC3?></r>| - | 2 8 1 2
# 64 bytes
K |<{62:n}\xC3\xA9/>| - | 9 67 2 4
K |<{63:n}\xC3\xA9/>| - | 3 65 0 0
K |<{63:n}\xC3\x97/>| - | 2 65 0 0
K |<{63:n}\xC3| - | 1 65 0 0
K |<{64:n}\xC3\x97| - | 3 65 0 0
K |<{64:n}\xC2\x80/>| - | 3 65 0 0
K |<{64:n}\xEE\x80\x80/>| - | 2 65 0 0
K |<{64:n}\x81/>| - | 2 65 0 0
K |<{61:n}\xE3\x81\x82/>| - | 9 67 2 4
K |<{62:n}\xE3\x81\x82/>| - | 3 65 0 0
K |<{62:n}\xEF\xBF\xBE/>| - | 2 65 0 0
K |<{21:\xE3\x81\x82}n/>| - | 9 67 2 4
K |<{60:n}\xF0\x90\x90\x80:{60:n}\xF0\x90\x90\x80 xmlns:{60:n}\xF0\x90\x90\x80='u'/>| - | 9 207 2 4
K |<p:{63:n}\xC3\xA9/>| - | 3 67 0 0
K |<r></{63:n}\xC3\xA9| - | 3 69 1 2
K |<r><?{63:t}\xC3\xA9?></r>| - | 3 69 1 2
# 16 attributes and then a byte
K |<r a='' b='' c='' d='' e='' f='' g='' h='' i='' j='' k='' l='' m='' n='' o='' \xC3\xA9=''/>| - | 9 85 2 36
K |<r a='' b='' c='' d='' e='' f='' g='' h='' i='' j='' k='' l='' m='' n='' o='' p='' \xC3\x97| - | 3 83 0 0
K |<r a='' b='' c='' d='' e='' f='' g='' h='' i='' j='' k='' l='' m='' n='' o='' p='' \xC2\xB7| - | 2 83 0 0
K |<r a='' b='' c='' d='' e='' f='' g='' h='' i='' j='' k='' l='' m='' n='' o='' p=''\xC3\xA9| - | 2 82 0 0
# a table whose URI is FF: accepted (any element validate 0)
F1 = 01 01 01 01 03 FE 00 00 01 FF
F1 |<r/>| - | 9 4 2 4
"#;

/// Scenes stepped in turn, each from the session that the one before left, until a number is not 0.
const STEPS: &str = r#"
K |<ab>t<| 0@4 0@5 1@6  |<\xC3\xA9>t<| 1@6
K |<ab>t<| 0@4 0@5 1@6  |<\xC3\x97>t<| 20@0
K |<ab>t<| 0@4 0@5 1@6  |<\xE3\x81>t<| 20@0
K |<ab>t<| 0@4 0@5 1@6  |<\xC2\xB7>t<| 20@0
K |<ab:c xmlns:ab='u'>t<| 0@19 0@20 1@21  |<\xCF\x80:c xmlns:\xCF\x80='u'>t<| 1@21
K |<ab:c xmlns:ab='u'>t<| 0@19 0@20 1@21  |<ab:c xmlns:\xC3\x97='u'>t<| 20@0
K |<r xmlns='ab'>t<| 0@14 0@15 1@16  |<r xmlns='\xFF\xFF'>t<| 1@16
K |<r>ab| 0@3 1@5  |<r>a\xC3| 1@5  |<r>a\xC3\xA9| 1@6  |<r>a\xC3\xA9<| 0@6 1@7
K |<r>a<| 0@3 0@4 1@5  |<r>\xC3\xA9\xC3\xA9<| 2@4
"#;

/// Page N5's rows: by row the code points before, at and after its ends. SN may begin a part, -N may only go on in one, -- neither.
const ROWS: &str = r#"
 1  0040 --  0041 SN  005A SN  005B --
 2  005E --  005F SN  0060 --
 3  0060 --  0061 SN  007A SN  007B --
 4  00BF --  00C0 SN  00D6 SN  00D7 --
 5  00D7 --  00D8 SN  00F6 SN  00F7 --
 6  00F7 --  00F8 SN  02FF SN  0300 -N
 7  036F -N  0370 SN  037D SN  037E --
 8  037E --  037F SN  1FFF SN  2000 --
 9  200B --  200C SN  200D SN  200E --
10  206F --  2070 SN  218F SN  2190 --
11  2BFF --  2C00 SN  2FEF SN  2FF0 --
12  3000 --  3001 SN  D7FF SN  D800 --
13  F8FF --  F900 SN  FDCF SN  FDD0 --
14  FDEF --  FDF0 SN  FFFD SN  FFFE --
15  FFFF --  10000 SN  EFFFF SN  F0000 --
16  002C --  002D -N  002E -N
17  002D -N  002E -N  002F --
18  002F --  0030 -N  0039 -N  003A --
19  00B6 --  00B7 -N  00B8 --
20  02FF SN  0300 -N  036F -N  0370 SN
21  203E --  203F -N  2040 -N  2041 --
"#;

/// Page N5's whole parts.
const PARTS: &str = r#"
K |<AZ_az\xC3\x80\xC3\x96\xC3\x98\xC3\xB6\xC3\xB8\xCB\xBF/>| - | 9 20 2 4
K |<\xCD\xB0\xCD\xBD\xCD\xBF\xE1\xBF\xBF\xE2\x80\x8C\xE2\x80\x8D\xE2\x81\xB0\xE2\x86\x8F/>| - | 9 24 2 4
K |<\xE2\xB0\x80\xE2\xBF\xAF\xE3\x80\x81\xED\x9F\xBF\xEF\xA4\x80\xEF\xB7\x8F\xEF\xB7\xB0\xEF\xBF\xBD/>| - | 9 27 2 4
K |<\xF0\x90\x80\x80\xF3\xAF\xBF\xBF-.09\xC2\xB7\xCC\x80\xCD\xAF\xE2\x80\xBF\xE2\x81\x80/>| - | 9 27 2 4
K |<-/>| - | 2 1 0 0
K |<./>| - | 2 1 0 0
K |<0/>| - | 2 1 0 0
K |<\xC2\xB7/>| - | 2 1 0 0
K |<\xCD\xAF/>| - | 2 2 0 0
K |<\xE2\x80\xBF/>| - | 2 3 0 0
K |<a\xC3\xB7/>| - | 2 3 0 0
K |<a\xCD\xBE/>| - | 2 3 0 0
K |<a\xE2\x80\x80/>| - | 2 4 0 0
K |<a\xE2\x81\x81/>| - | 2 4 0 0
K |<a\xE2\x86\x90/>| - | 2 4 0 0
K |<a\xE2\xBF\xB0/>| - | 2 4 0 0
K |<a\xE3\x80\x80/>| - | 2 4 0 0
K |<a\xED\xA0\x80/>| - | 2 3 0 0
K |<a\xEE\x80\x80/>| - | 2 2 0 0
K |<a\xEF\xA3\xBF/>| - | 2 3 0 0
K |<a\xEF\xB7\x90/>| - | 2 4 0 0
K |<a\xEF\xB7\xAF/>| - | 2 4 0 0
K |<a\xEF\xBF\xBE/>| - | 2 4 0 0
K |<a\xF3\xB0\x80\x80/>| - | 2 3 0 0
"#;

/// Number and place of a run by K.
fn ending_of(scene: &[u8]) -> (u8, u64) {
    let got = run(&k(), scene, ROOM).0;
    (got.number, got.place)
}

#[test]
fn the_decisions_examples() {
    for (line, scene, expected) in decided(DECISIONS) {
        assert_eq!(ending_of(&scene), expected, "{line}");
    }
    assert_eq!(decided(DECISIONS).len(), 129);
}

/// They meet no section without a rule, so that both tables give them; and the forecast is the run's.
#[test]
fn the_pages_vectors() {
    let list = vectors(VECTORS);
    for vector in list.iter().chain(&vectors(PARTS)) {
        vector.check(&vector.table);
        vector.check(&former(&vector.table));
        let told = forecast(&vector.table, &vector.scene);
        let four = (told.number, told.place, told.records);
        let expected = (
            vector.answer.number,
            vector.answer.place,
            vector.answer.records,
        );
        assert_eq!(four, expected, "{}", vector.line);
    }
    let shown = list.iter().filter(|vector| !vector.records.is_empty());
    assert_eq!(
        (list.len(), shown.count(), vectors(PARTS).len()),
        (59, 2, 24)
    );
}

#[test]
fn the_pages_steps() {
    written(STEPS).for_each(check_steps);
    assert_eq!(written(STEPS).count(), 9);
}

/// A scene with a part at each place where one may stand: an element's name, a prefix, an end's, an attribute's and its prefix, a target.
fn scenes_with(part: &[u8]) -> [Vec<u8>; 6] {
    let join = |pieces: &[&[u8]]| pieces.concat();
    [
        join(&[b"<", part, b"/>"]),
        join(&[b"<", part, b":a xmlns:", part, b"='u'/>"]),
        join(&[b"<", part, b"></", part, b">"]),
        join(&[b"<r ", part, b"=''/>"]),
        join(&[b"<r xmlns:", part, b"='u' ", part, b":a=''/>"]),
        join(&[b"<?", part, b"?><r/>"]),
    ]
}

/// Number 9 for all if it is a part, else 2.
fn check_part(part: &[u8], is_part: bool, line: &str) {
    for scene in scenes_with(part) {
        let number = ending_of(&scene).0;
        assert_eq!(
            number,
            if is_part { 9 } else { 2 },
            "{line}: {}",
            scene.escape_ascii()
        );
    }
}

/// A colon ends a part, and a part may come behind it.
const COLON: u32 = 0x3A;

#[test]
fn n5_the_rows() {
    let mut asked = 0;
    for line in written(ROWS) {
        let words: Vec<&str> = line.split_whitespace().skip(1).collect();
        for pair in words.chunks(2) {
            let code = u32::from_str_radix(pair[0], 16).expect(line);
            let character = form_of(code);
            check_part(&character, pair[1] == "SN", line);
            if code != COLON {
                check_part(&[b"a", &character[..]].concat(), pair[1] != "--", line);
                check_part(
                    &[b"a", &character[..], b"b"].concat(),
                    pair[1] != "--",
                    line,
                );
            }
            asked += 1;
        }
    }
    assert_eq!((written(ROWS).count(), asked), (21, 80));
}

/// Bytes with which a character of NameStartChar begins, first and last of each run.
const BEGIN_START: [(u8, u8); 8] = [
    (0x41, 0x5A),
    (0x5F, 0x5F),
    (0x61, 0x7A),
    (0xC3, 0xCB),
    (0xCD, 0xDF),
    (0xE0, 0xED),
    (0xEF, 0xEF),
    (0xF0, 0xF3),
];
/// And with which only others of NameChar begin.
const BEGIN_FURTHER: [(u8, u8); 4] = [(0x2D, 0x2E), (0x30, 0x39), (0xC2, 0xC2), (0xCC, 0xCC)];

fn begins(runs: &[(u8, u8)], byte: u8) -> bool {
    runs.iter()
        .any(|&(first, last)| (first..=last).contains(&byte))
}

#[test]
fn n4_10_every_65th_byte() {
    for byte in 0..=255 {
        let goes_on = begins(&BEGIN_START, byte) || begins(&BEGIN_FURTHER, byte);
        for before in [
            "<{64:n}",
            "<r {64:n}",
            "<p:{64:n}",
            "<r></{64:n}",
            "<?{64:n}",
        ] {
            let scene = [&bytes(before)[..], &[byte]].concat();
            let at = scene.len() as u64 - 1;
            let got = ending_of(&scene);
            match byte {
                _ if goes_on => assert_eq!(got, (3, at), "{byte:02X}"),
                0x80.. => assert_eq!(got, (2, at), "{byte:02X}"),
                _ => assert_ne!(got.0, 3, "{byte:02X}"),
            }
        }
    }
}

#[test]
fn n4_10_every_last_byte_of_a_character_at_65() {
    for byte in 0..=255 {
        let scene = [&bytes("<{61:n}\\xEF\\xB7")[..], &[byte]].concat();
        assert_eq!(
            ending_of(&scene).0,
            if matches!(byte, 0x80..=0x8F | 0xB0..=0xBF) {
                1
            } else {
                2
            }
        );
        let scene = [&bytes("<{62:n}\\xEF\\xB7")[..], &[byte]].concat();
        let number = if matches!(byte, 0x80..=0x8F | 0xB0..=0xBF) {
            3
        } else {
            2
        };
        assert_eq!(ending_of(&scene), (number, 65), "{byte:02X}");
    }
}

#[test]
fn n4_11_every_byte_of_a_17th_attribute() {
    let sixteen: String = (0..16).map(|number| format!(" a{number}=''")).collect();
    for byte in 0..=255 {
        let scene = [b"<r", sixteen.as_bytes(), b" ", &[byte]].concat();
        let at = scene.len() as u64 - 1;
        let expected = match byte {
            byte if begins(&BEGIN_START, byte) => (3, at),
            b'\t' | b'\n' | b'\r' | b' ' | b'/' | b'>' => (1, at + 1),
            _ => (2, at),
        };
        assert_eq!(ending_of(&scene), expected, "{byte:02X}");
    }
}

/// A session whose only level has this span for its name.
fn named_at(span: Span) -> Session {
    let mut session = session_after(&k(), b"<r>", 1);
    session.place = 0;
    session.levels[0].name = span;
    session
}

/// A session whose only binding has this span for its prefix, and the scene's first byte for its URI.
fn bound_at(span: Span) -> Session {
    let mut session = session_after(&k(), b"<r xmlns:p='u'>", 1);
    session.place = 0;
    session.levels[0].name = Span::new(1, 1);
    session.bindings[0].prefix = span;
    session.bindings[0].uri = Span::new(0, 1);
    session
}

/// Every span of a scene: names of levels and prefixes of bindings are whole characters.
#[test]
fn n4_13_every_span() {
    let scene =
        bytes("<r \\xCF\\x80\\xE9\\xAA\\xA8:\\xC3\\xA9\\xC2\\xB7 \\xC3\\x97\\xF0\\x90\\x90\\x80");
    // First byte and the one behind, of all that are parts.
    let parts = [(1, 2), (3, 5), (3, 8), (5, 8), (9, 11), (9, 13), (16, 20)];
    let prefixed = [(3, 11), (3, 13), (5, 11), (5, 13)];
    for from in 1..=scene.len() {
        for to in from..=scene.len() {
            let span = Span::new(from as u64, (to - from) as u64);
            let is_part = parts.contains(&(from, to));
            let is_name = is_part || prefixed.contains(&(from, to));
            assert_eq!(
                coherent(&k(), &scene, &named_at(span)),
                is_name,
                "{from} {to}"
            );
            assert_eq!(
                coherent(&k(), &scene, &bound_at(span)),
                is_part,
                "{from} {to}"
            );
        }
    }
}

#[test]
fn n4_13_parts_of_64_bytes() {
    let judged = |scene: &str| {
        let scene = bytes(scene);
        let span = Span::new(2, scene.len() as u64 - 2);
        let name = coherent(&k(), &scene, &named_at(span));
        (name, coherent(&k(), &scene, &bound_at(span)))
    };
    assert_eq!(judged("<r{62:n}\\xC3\\xA9"), (true, true));
    assert_eq!(judged("<r{63:n}\\xC3\\xA9"), (false, false));
    assert_eq!(judged("<r{21:\\xE3\\x81\\x82}n"), (true, true));
    assert_eq!(judged("<r{21:\\xE3\\x81\\x82}nn"), (false, false));
    assert_eq!(judged("<r{16:\\xF0\\x90\\x80\\x80}"), (true, true));
    assert_eq!(judged("<r{62:n}\\xC3\\xA9:{62:n}\\xC3\\xA9"), (true, false));
    assert_eq!(
        judged("<r{62:n}\\xC3\\xA9:{63:n}\\xC3\\xA9"),
        (false, false)
    );
}

/// A URI's span may lie anywhere in the scene.
#[test]
fn n4_13_spans_of_uris() {
    let scene = bytes("<r \\xC3\\xA9\\xFF");
    for (at, len) in [(3, 1), (4, 1), (4, 2), (5, 1)] {
        let mut session = bound_at(Span::new(1, 1));
        session.bindings[0].uri = Span::new(at, len);
        session.levels[0].uri = Span::new(at, len);
        assert!(coherent(&k(), &scene, &session));
    }
}

/// A listed URI that is no text: no scene names it, but a session may, of a scene that has changed.
#[test]
fn n4_14_a_table_whose_uri_is_no_text() {
    let table = table_in(&[VECTORS], "F1");
    assert_eq!(judge(&table), answer(0, table.len() as u64, 0, 0));
    assert_eq!(ends(&table, b"<r xmlns='\xFF'/>"), (2, 10));
    let session = session_after(&table, b"<r xmlns='a'>", 1);
    let (got, next, records) = step(&table, b"<r xmlns='\xFF'><x>", &session, AMPLE);
    assert_eq!((got, next.levels[1].class), (answer(0, 16, 1, 1), 1));
    assert_eq!(lines(&records), ["0 1 1 14 1 0 0"]);
}

/// A place inside a character: 2 there, whatever the session holds.
#[test]
fn n4_15_places_inside_characters() {
    let scene = bytes("<\\xC3\\xA9>\\xE3\\x81\\x82\\xF0\\x90\\x80\\x80<");
    let inside = session_after(&k(), &scene, 1);
    let closed = session_after(&k(), b"<r/>", 2);
    let from = |session: &Session, place: u64| {
        let odd = Session {
            place,
            ..session.clone()
        };
        let got = step(&k(), &scene, &odd, AMPLE).0;
        (got.number, got.place)
    };
    for place in [2, 5, 6, 8, 9, 10] {
        for session in [&inside, &closed, &Session::fresh()] {
            assert_eq!(from(session, place), (2, place));
        }
    }
    assert_eq!(from(&inside, 4), (0, 11));
    assert_eq!(from(&inside, 7), (0, 11));
    assert_eq!(from(&inside, 1), (0, 11));
    assert_eq!(from(&inside, 11), (1, 12));
}

fn all_scenes() -> impl Iterator<Item = Vec<u8>> {
    let pages = vectors(VECTORS).into_iter().chain(vectors(PARTS));
    let examples = decided(DECISIONS).into_iter().map(|decision| decision.1);
    pages.map(|vector| vector.scene).chain(examples)
}

#[test]
fn laws_of_the_refused_byte() {
    all_scenes().for_each(|scene| check_refused_byte(&scene));
}

/// A scene that is accepted ends early at every cut, also inside a character, unless the root has closed.
#[test]
fn cuts_of_accepted_scenes() {
    let mut cuts = 0;
    for scene in all_scenes().filter(|scene| ending_of(scene).0 == 9) {
        for cut in 0..scene.len() {
            let (number, place) = ending_of(&scene[..cut]);
            assert!(number == 1 || number == 9 && scene[..cut].ends_with(b">"));
            assert_eq!(place, cut as u64);
            cuts += (scene[cut] & 0xC0 == 0x80) as u64;
        }
    }
    assert!(cuts > 100, "{cuts}");
}
