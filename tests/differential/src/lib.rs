//! The dispatcher's C calls beside the reference: what both say must be the same.
//!
//! `calls` has the calls as include/calcivorne.h gives them, `layout` the bytes of a session and of an offer. `asked` asks the dispatcher with the
//! reference's types, so that a vector reads the same for both. `checked` asks both and compares. `case` says what was asked when they differ, `pace`
//! bounds the random loops. `shapes` has tables and scenes, `held` sessions inside them and changes to their bytes.

pub mod asked;
pub mod calls;
pub mod case;
pub mod checked;
pub mod held;
pub mod layout;
pub mod pace;
pub mod shapes;

pub use asked::{ask, coherent, commit, forecast, judge, program, run, session_after, step, uri};
pub use case::Case;
pub use pace::Pace;

// The rest of a vector's words are the reference's: tests/rulings.rs asks the dispatcher the reference's own vectors.
pub use reference::{accepted_events, events, forecast_by_event, plus, prefix_records, record_bound, records_by_event, records_of_event};
pub use reference::{accepted_events_under, forecast_by_event_under, forecast_under, program_under, records_by_event_under, run_under};
pub use reference::{generate, table, Action, Answer, Asked, Binding, Event, EventCounts, Forecast, Level, Offer, Reading, Record, Session};
pub use reference::{session_after_under, step_under, Defaults, Span, Strand, What, REJECT};
