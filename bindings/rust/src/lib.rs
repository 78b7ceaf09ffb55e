//! The host side of a VMware SVGA II display adapter: registers, command ring, screen, cursor plane and fences.
//!
//! The device itself is written in Rattle and machine-proved: whatever a guest writes to its registers and its ring, every call ends,
//! gives an answer from a fixed table and changes only what the rules name. This crate is the same library for Rust. Its one module with
//! `unsafe` is [`sys`].
//!
//! - [`Device`] is the state alone, 64 words. Each call is lent the memories that it works on: for hypervisors, whose guest memory lies
//!   elsewhere.
//! - [`Adapter`] is a device with memories of its own.
//! - [`Command`] is what a guest appends to the ring, all its words or none, by the library's own writer.
//!
//! A refused call is an [`Error`] and has changed nothing. A run that meets a bad command ends in a [`Fault`], which is a part of what it
//! answers.
//!
//! ```
//! use svga::{Adapter, Command, End, Rect};
//!
//! # fn main() -> Result<(), svga::Error> {
//! let mut adapter = Adapter::new(10_256, 1_024)?; // a ring memory of 10,256 bytes, 1,024 pixels
//! adapter.start(32, 32)?;
//! adapter.submit(&Command::RectFill { colour: 0x3399FF, to: Rect::new(30, 31, u32::MAX, 5) })?;
//! adapter.submit(&Command::Fence(1))?;
//!
//! let run = adapter.run(1000)?;
//! assert_eq!((run.end, run.count), (End::Drained, 2));
//! assert!(adapter.fence_passed(1));
//!
//! let picture = adapter.picture()?; // the fill is cut at the screen's corner
//! assert_eq!(picture.pixel(29, 31), Some(0));
//! assert_eq!(picture.pixel(31, 31), Some(0x3399FF));
//! # Ok(())
//! # }
//! ```
//!
//! With memories that lie elsewhere:
//!
//! ```
//! use svga::{limit, reg, ring, Command, Device, Lent, Rect, CURSOR_WORDS};
//!
//! # fn main() -> Result<(), svga::Error> {
//! let (mut guest_ring, guest_framebuffer) = (vec![0; 2_564], vec![0x00FF00; 1_024]);
//! let (mut screen, mut cursor) = (vec![0; 1_024], vec![0; CURSOR_WORDS]);
//! let mut device = Device::new(10_256, 1_024)?;
//!
//! // the guest's driver: registers by its ports, commands by its memory
//! device.write(&[], reg::WIDTH, 32)?;
//! device.write(&[], reg::HEIGHT, 32)?;
//! device.write(&[], reg::ENABLE, 1)?;
//! ring::reset(&mut guest_ring, limit::RING_START_MIN);
//! device.write(&guest_ring, reg::CONFIG_DONE, 1)?;
//! Command::Update(Rect::new(0, 0, 32, 32)).append_to(&mut guest_ring)?;
//!
//! // the host, whenever it likes
//! let lent = Lent { ring: &mut guest_ring, framebuffer: &guest_framebuffer, screen: &mut screen, cursor: &mut cursor };
//! let run = device.run(lent, 1000)?;
//! assert_eq!(run.to_string(), "drained, 1 command consumed");
//! assert!(screen.iter().all(|&pixel| pixel == 0x00FF00));
//! # Ok(())
//! # }
//! ```
#![deny(unsafe_code, missing_docs)]

mod adapter;
mod answers;
mod command;
mod constants;
mod device;
pub mod ring;
#[allow(unsafe_code)]
pub mod sys;

pub use adapter::{Adapter, Picture};
pub use answers::{End, Error, Fault, Flaw, Memory, Run};
pub use command::{Command, Rect};
pub use constants::*;
pub use device::{Device, Edges, Lent};
