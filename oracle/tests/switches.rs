//! Where the switches of the published meter panic: document 02's K8 keeps what they gave, with 18 for
//! a panic. `meters` tests that before it calls them, so no script shows it.

use std::panic::{catch_unwind, set_hook};

use published::quantities::{seconds, Time};
use published::util::meters::{AverageFlowMeter, FlowMeter};

fn at(time: f64) -> Time {
    Time::from_sim_start(seconds(time))
}

fn panics(switch: fn()) -> bool {
    catch_unwind(switch).is_err()
}

#[test]
fn the_state_it_has_and_off_before_its_start() {
    set_hook(Box::new(|_| ()));
    assert!(panics(|| AverageFlowMeter::new_disabled().set_disabled(at(1.))));
    assert!(panics(|| AverageFlowMeter::new_enabled(at(2.)).set_enabled(at(1.))));
    assert!(panics(|| AverageFlowMeter::new_enabled(at(2.)).set_enabled(at(2.))));
    assert!(panics(|| AverageFlowMeter::new_enabled(at(2.)).set_enabled(at(3.))));
    assert!(panics(|| AverageFlowMeter::new_enabled(at(2.)).set_disabled(at(1.))));
    assert!(!panics(|| AverageFlowMeter::new_disabled().set_enabled(at(1.))));
    assert!(!panics(|| AverageFlowMeter::new_enabled(at(2.)).set_disabled(at(2.))));
    assert!(!panics(|| AverageFlowMeter::new_enabled(at(2.)).set_disabled(at(3.))));
}
