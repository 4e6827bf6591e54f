//! What is told instead of a result: a number, and a place. The number decides the layer.

#[derive(Clone, Copy, PartialEq, Eq, PartialOrd, Ord, Debug)]
pub struct Refusal {
    pub number: u8,
    pub place: usize,
}

impl Refusal {
    pub fn new(number: u8, place: usize) -> Refusal {
        Refusal { number, place }
    }

    pub fn layer(&self) -> &'static str {
        match self.number {
            1..=3 => "text",
            4 | 6 => "signals",
            5 | 7 | 8 => "rule",
            9..=12 => "compile",
            13 => "store",
            14..=16 => "diagram",
            17 => "game",
            18..=20 => "run",
            _ => "solve",
        }
    }

    /// How a line of the product that tells this refusal begins.
    pub fn head(&self) -> String {
        format!("refusal {} ({}) at {}: ", self.number, self.layer(), self.place)
    }
}
