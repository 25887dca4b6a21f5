//! The outdoor equipment of a station, as a table.

use crate::layout::Position;
use crate::numbers::Numbers;

/// What is known of one element outdoors.
#[derive(Clone, Copy, Debug, Default, PartialEq, Eq)]
pub struct Device {
    /// The position in which the element is proved to lie; none is no control.
    pub report: Option<Position>,
    pub blocked: bool,
    /// The stop lamp burns.
    pub burning: bool,
    /// The position that the element was last ordered to.
    pub order: Option<Position>,
}

/// A device for each of 96 elements, and which of 64 sections are occupied.
#[derive(Clone, Debug)]
pub struct TableField {
    devices: [Device; 96],
    occupied: Numbers,
}

impl TableField {
    /// A field of which nothing has been heard.
    pub fn fresh() -> TableField {
        TableField {
            devices: [Device::default(); 96],
            occupied: Numbers::default(),
        }
    }

    /// What is known of an element; nothing good of one that is not there.
    pub fn device(&self, element: u8) -> Device {
        self.devices
            .get(usize::from(element))
            .copied()
            .unwrap_or(Device {
                blocked: true,
                ..Device::default()
            })
    }

    /// Whether a section is occupied, or is not there.
    pub fn is_occupied(&self, section: u8) -> bool {
        section >= 64 || self.occupied.contains(section)
    }

    /// Whether all of some sections are free.
    pub fn are_free(&self, sections: Numbers) -> bool {
        self.occupied.shared_with(sections).is_empty()
    }

    /// Orders the element to the position: a report of another position is given up.
    pub fn order(&mut self, element: u8, position: Position) {
        if let Some(device) = self.devices.get_mut(usize::from(element)) {
            device.report = device.report.filter(|reported| *reported == position);
            device.order = Some(position);
        }
    }

    pub fn tell_report(&mut self, element: u8, report: Option<Position>) {
        if let Some(device) = self.devices.get_mut(usize::from(element)) {
            device.report = report;
        }
    }

    pub fn tell_block(&mut self, element: u8, blocked: bool) {
        if let Some(device) = self.devices.get_mut(usize::from(element)) {
            device.blocked = blocked;
        }
    }

    pub fn tell_lamp(&mut self, element: u8, burning: bool) {
        if let Some(device) = self.devices.get_mut(usize::from(element)) {
            device.burning = burning;
        }
    }

    pub fn tell_occupation(&mut self, section: u8, occupied: bool) {
        if section >= 64 {
            return;
        }
        if occupied {
            self.occupied.insert(section);
        } else {
            self.occupied.remove(section);
        }
    }
}
