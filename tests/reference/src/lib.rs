//! A tree-building implementation of document 01, the Rig scene section dispatcher.
//!
//! It was written from document 01, requests N1 to N6 of document 02 and their rulings alone, to
//! be matched byte for byte with the dispatcher. N5 alters nothing that is handed back, so that
//! nothing was to be done for it. The way a scene goes:
//!
//! 1. `characters`, `lexical`, `misc` and `reader`: the whole scene becomes a list of events;
//! 2. `tree`: the events become a tree, closed at the cut;
//! 3. `sections`: the tree is divided into sections and slots, an element's attributes likewise;
//! 4. `strands`: rules are assigned along the strands of every section;
//! 5. `model`: slots are filled along each unit's strand, units are validated;
//! 6. `records`: the units' records are listed by event, numbered and packed;
//! 7. `limits`: numbers 21 to 25, found on the tree and on the list;
//! 8. `forecast`: the figures of request N2, counted on both.
//!
//! What holds where a table has no rule is a parameter, `defaults`: every call is under the
//! standard's defaults of request N3, and one whose name ends in `_under` under those it is given.
//!
//! No session and no step takes part in that. `session` derives the session after some accepted
//! steps from the tree's open path; `step` stands apart from the model and is there only for
//! sessions that no scene leads to, and `offers` for request N6 on top of it.

pub mod answer;
pub mod characters;
pub mod defaults;
pub mod forecast;
pub mod generate;
pub mod lexical;
pub mod limits;
mod misc;
pub mod model;
pub mod names;
pub mod offers;
pub mod prefixes;
pub mod program;
pub mod reader;
pub mod records;
pub mod run;
pub mod sections;
pub mod session;
pub mod span;
pub mod step;
pub mod strands;
pub mod table;
pub mod tree;
pub mod uri;

pub use answer::Answer;
pub use defaults::{plus, Defaults, REJECT};
pub use forecast::{forecast, forecast_by_event, record_bound, EventCounts, Forecast};
pub use forecast::{forecast_by_event_under, forecast_under};
pub use offers::{ask, commit, Asked, Offer};
pub use prefixes::{accepted_events, prefix_records, records_by_event, records_of_event};
pub use prefixes::{accepted_events_under, records_by_event_under};
pub use program::{program, program_under};
pub use reader::{events, Event, Reading, What};
pub use records::Record;
pub use run::{run, run_under};
pub use session::{coherent, session_after, session_after_under};
pub use session::{Binding, Level, Session, Strand};
pub use span::Span;
pub use step::{step, step_under};
pub use table::{judge, Action};
pub use uri::uri;
