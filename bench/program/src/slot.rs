//! Ports with nothing behind them, and room for one operation.
ghost use Rattle.std.specs.Prelude.{◌≡◌, None};

use i80_base::ports::{PortOperation, Ports};

/// The operation of the last step, if it had one.
#[derive(Drop)]
pub struct Slot {
    held: Option<PortOperation>,
}

impl Slot {
    pub fn new() -> Slot {
        Slot { held: None }
    }

    /// Makes room for an operation.
    #[inline(always)]
    pub fn clear(&mut self)
        ensures { self.new.held ≡ None }
    {
        self.held = None;
    }
}

impl Ports for Slot {
    ghost use Rattle.bench.specs.Slot.{held_list, room};

    type State = u8;

    ghost operations = { λ s. held_list s.held };

    ghost state = { λ s. 0 };

    ghost spare = { λ s. room s.held };

    ghost answer = { λ _ _. 0 };

    ghost after = { λ _ _. 0 };

    #[inline(always)]
    fn input(&mut self, port: u8) -> u8 {
        self.held = Some(PortOperation::In { port, byte: 0 });
        0
    }

    #[inline(always)]
    fn output(&mut self, port: u8, byte: u8) {
        self.held = Some(PortOperation::Out { port, byte });
    }
}
