//! What a network of modules does, told in plain Rust from the scope paper and the manuals alone. It is neither fast
//! nor clever: it is there for the proved library to disagree with.
//!
//! A module type is a `Device`; what every type shares is written once over it. A further type is one more `Device`
//! and one more case of `Module`.

mod buffer;
mod homing;
mod host;
mod io;
mod line;
mod network;
mod replay;
mod samples;
mod servo;
mod station;
mod stepper;
mod text;

pub use buffer::{number_given, put_replies, Buffer};
pub use homing::{HomeStop, Homing, LIMITS_MOST};
pub use host::{frame_bytes, item_sizes, items_of, read_status, Reading};
pub use io::{Io, IoSample, BITS};
pub use line::{sum, Frame, Receiver, HEADER};
pub use network::{Ended, Module, Network};
pub use replay::{replay, replay_with, Event, Record};
pub use servo::{
    distance, greatest_speed, is_half_turn, stopping_sum, Gains, Load, Mode, Servo, ServoSample, Way, SPEED_MOST,
};
pub use station::{Device, Station, Touch, CAUSES, DAMAGED, EXECUTED, NOT_NOW, OUT_OF_RANGE, UNKNOWN, WRONG_COUNT};
pub use stepper::{Motion, StepLoad, Stepper, STEPS_MOST};
pub use text::{export, import, monitor_export, monitor_import};
