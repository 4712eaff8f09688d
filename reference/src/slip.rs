//! What a refusal tells: its number, the layer that found the fault, and where.

use std::fmt;

#[derive(Clone, Copy, Debug, PartialEq, Eq)]
pub enum Layer {
    Arithmetic,
    Plan,
    Strip,
    Book,
    Checker,
    Listing,
}

#[derive(Clone, Copy, Debug, PartialEq, Eq)]
pub struct Slip {
    pub number: u32,
    pub layer: Layer,
    pub place: u32,
}

impl Layer {
    /// The refusal if the condition holds.
    pub fn refuses_if(self, condition: bool, number: u32, place: u32) -> Result<(), Slip> {
        if condition {
            Err(self.slip(number, place))
        } else {
            Ok(())
        }
    }

    pub fn slip(self, number: u32, place: u32) -> Slip {
        Slip {
            number,
            layer: self,
            place,
        }
    }

    fn name(self) -> &'static str {
        match self {
            Layer::Arithmetic => "arithmetic",
            Layer::Plan => "plan",
            Layer::Strip => "strip",
            Layer::Book => "book",
            Layer::Checker => "checker",
            Layer::Listing => "listing",
        }
    }
}

impl Slip {
    fn reason(self) -> &'static str {
        match self.layer {
            Layer::Checker => checker_reason(self.number),
            _ => trial_reason(self.number),
        }
    }
}

impl fmt::Display for Slip {
    fn fmt(&self, to: &mut fmt::Formatter) -> fmt::Result {
        let (number, layer, place) = (self.number, self.layer.name(), self.place);
        write!(
            to,
            "refused {number} by {layer} at {place}: {}",
            self.reason()
        )
    }
}

fn trial_reason(number: u32) -> &'static str {
    match number {
        1 => "no arithmetic of this count",
        2 => "the factors are none, or more than the levels",
        3 => "the strength is 0, or above the factors",
        4 => "no arithmetic of so many levels divides",
        5 => "more than 65536 labels",
        6 => "the words handed in are not as many as the labels",
        7 => "no such label",
        8 => "no such factor",
        9 => "no such level or fine setting",
        10 => "the grade is above 1000",
        11 => "the wishes are not as many as the strength",
        12 => "a factor is wished for again",
        13 => "the label does not stand as the call needs it",
        14 => "no label waits, and some label is out",
        15 => "strip done",
        16 => "some label is not graded",
        17 => "a torn word",
        18 => "the first line is malformed",
        _ => unreachable!("no refusal has the number {number}"),
    }
}

fn checker_reason(number: u32) -> &'static str {
    match number {
        1 => "no such number of levels",
        2 => "no such number of factors",
        3 => "the strength is 0, or above the factors",
        5 => "too many combinations, or no or too many runs",
        6 => "the runs do not all have as many levels as there are factors",
        9 => "no such level",
        _ => unreachable!("no refusal of the checker has the number {number}"),
    }
}
