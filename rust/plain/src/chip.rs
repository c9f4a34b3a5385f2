//! The chip at its events on the bus.

use crate::registers::{self, span, READ_ONLY};

/// What happens on the bus.
#[derive(Clone, Copy, Debug, PartialEq, Eq)]
pub enum Event {
    /// A start.
    Start,
    /// A stop.
    Stop,
    /// A byte from the master.
    FromMaster(u8),
    /// A byte to the master, which acknowledges it or not.
    ToMaster {
        /// Whether the master acknowledges it.
        acknowledged: bool,
    },
}

/// What the chip does or waits for.
#[derive(Clone, Copy, Debug, PartialEq, Eq)]
pub enum Phase {
    /// Nothing: only a start wakes it.
    Idle,
    /// It waits for an address.
    Address,
    /// It waits for a subaddress.
    Subaddress,
    /// It waits for data.
    Data,
    /// It sends.
    Sending,
}

/// The chip's acknowledge of an event.
#[derive(Clone, Copy, Debug, PartialEq, Eq)]
pub enum Acknowledge {
    /// The byte is acknowledged.
    Yes,
    /// It isn't.
    No,
    /// None is due.
    NotAsked,
}

/// What the master reads where the chip doesn't send.
pub const RELEASED: u8 = 0xFF;

/// A chip on the bus.
#[derive(Clone, Debug)]
pub struct Chip<const REGISTERS: usize> {
    /// Its registers.
    pub registers: [u8; REGISTERS],
    /// Flags: bit r is set where register r is known. A stored byte makes it so.
    pub known: u64,
    /// The register that is written or read next.
    pub pointer: usize,
    /// What it does or waits for.
    pub phase: Phase,
    // Its own even address.
    own: u8,
    // Bit r is set where data for register r are acknowledged and dropped.
    dropped: u64,
}

impl Chip<{ registers::REGISTERS }> {
    /// A fresh ADV7194: idle, pointer 00.
    pub fn fresh(own: u8, registers: [u8; registers::REGISTERS], known: u64) -> Self {
        Chip::dropping(span(READ_ONLY, 1), own, registers, known)
    }
}

impl<const REGISTERS: usize> Chip<REGISTERS> {
    // The last register.
    const LAST: usize = REGISTERS - 1;

    /// A fresh chip that drops data for some registers.
    pub(crate) fn dropping(
        dropped: u64,
        own: u8,
        registers: [u8; REGISTERS],
        known: u64,
    ) -> Chip<REGISTERS> {
        Chip {
            registers,
            known,
            pointer: 0,
            phase: Phase::Idle,
            own,
            dropped,
        }
    }

    /// One event: the byte that the master reads, and the chip's acknowledge.
    pub fn step(&mut self, event: Event) -> (u8, Acknowledge) {
        match event {
            Event::Start => {
                self.phase = Phase::Address;
                (RELEASED, Acknowledge::NotAsked)
            }
            Event::Stop => {
                self.phase = Phase::Idle;
                (RELEASED, Acknowledge::NotAsked)
            }
            Event::FromMaster(byte) => match self.next(byte) {
                Some(phase) => {
                    self.phase = phase;
                    (RELEASED, Acknowledge::Yes)
                }
                None => self.refuse(),
            },
            Event::ToMaster { acknowledged } if self.phase == Phase::Sending => {
                if !acknowledged {
                    self.phase = Phase::Idle;
                }
                (self.send(), Acknowledge::NotAsked)
            }
            Event::ToMaster { .. } => self.refuse(),
        }
    }

    /// Not acknowledged, and idle.
    fn refuse(&mut self) -> (u8, Acknowledge) {
        self.phase = Phase::Idle;
        (RELEASED, Acknowledge::No)
    }

    /// The phase after a byte from the master that is acknowledged.
    fn next(&mut self, byte: u8) -> Option<Phase> {
        match self.phase {
            Phase::Address if byte == self.own => Some(Phase::Subaddress),
            Phase::Address if Some(byte) == self.own.checked_add(1) => Some(Phase::Sending),
            Phase::Subaddress if usize::from(byte) <= Self::LAST => {
                self.pointer = byte.into();
                Some(Phase::Data)
            }
            Phase::Data if self.pointer <= Self::LAST => {
                if self.dropped >> self.pointer & 1 == 0 {
                    self.registers[self.pointer] = byte;
                    self.known |= span(self.pointer, 1);
                }
                self.pointer += 1;
                Some(Phase::Data)
            }
            _ => None,
        }
    }

    /// The pointer's register, and the pointer one further, both at most the last.
    fn send(&mut self) -> u8 {
        let at = self.pointer.min(Self::LAST);
        self.pointer = (at + 1).min(Self::LAST);
        self.registers[at]
    }
}
