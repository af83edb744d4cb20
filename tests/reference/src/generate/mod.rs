//! Generated sites, states, journals and their damage; the same seed gives the same case.

pub mod case;
pub mod clock;
pub mod damage;
pub mod forms;
pub mod journals;
pub mod random;
pub mod sites;
pub mod states;

pub use case::{case, list_run, Case};
pub use forms::{forms, Forms};
pub use journals::journal;
pub use random::Random;
pub use sites::{large_site, orders_of_three, site};
pub use states::{longer_state, state};
