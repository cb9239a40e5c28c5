//! Records the operations of `replay`.

use crate::bytes::Writer;
use crate::calls::{self, Call};
use crate::point_day::PointDay;
use crate::replay::Operation;

pub struct Recorder {
    /// Whether inventories and day files are recorded.
    all: bool,
    operations: Vec<Operation>,
}

impl Recorder {
    pub fn new(all: bool) -> Recorder {
        Recorder { all, operations: Vec::new() }
    }

    pub fn fresh(&mut self) {
        self.operations.push(Operation::Fresh);
    }

    pub fn load(&mut self, day: &PointDay) {
        self.operations.push(Operation::Load(day.clone()));
    }

    pub fn call(&mut self, call: Call) {
        self.operations.push(Operation::Call(call));
    }

    pub fn calls(&mut self, calls: impl IntoIterator<Item = Call>) {
        for call in calls {
            self.call(call);
        }
    }

    pub fn show(&mut self) {
        self.operations.push(Operation::Show);
    }

    pub fn inventory(&mut self, buffer: usize) {
        if self.all {
            self.operations.push(Operation::Inventory(buffer));
        }
    }

    pub fn day_file(&mut self, bytes: Vec<u8>) {
        if self.all {
            self.operations.push(Operation::DayFile(bytes));
        }
    }

    /// The lists of calls recorded, each from fresh.
    pub fn lists(&self) -> Vec<Vec<Call>> {
        let mut lists = Vec::new();
        for operation in &self.operations {
            match operation {
                Operation::Fresh => lists.push(Vec::new()),
                Operation::Call(call) => lists.last_mut().unwrap().push(call.clone()),
                _ => {}
            }
        }
        lists
    }

    /// The point-days that the operations load, and those that the calls on them reach.
    pub fn point_days(&self) -> Vec<PointDay> {
        let mut days: Vec<PointDay> = Vec::new();
        for operation in &self.operations {
            match (operation, days.last()) {
                (Operation::Load(day), _) => days.push(day.clone()),
                (Operation::Call(call), Some(last)) => {
                    let mut day = last.clone();
                    if calls::make(&mut day, call).is_ok() {
                        days.push(day);
                    }
                }
                _ => {}
            }
        }
        days
    }

    pub fn bytes(&self) -> Vec<u8> {
        let mut out = Writer::new();
        for operation in &self.operations {
            operation.write(&mut out);
        }
        out.bytes
    }
}
