//! Stand-in for a module of the published lib.rs that no listed file holds and the network does not use.
