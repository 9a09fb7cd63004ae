//! Moving a ConnMan service to iwd: "a move writes the file name and the file of the service's record, one into each buffer".

use super::connman;
use super::refusal::{Fault, Refusal};
use super::writer::{write, Room, Written};

/// What a move writes: the reading's own refusals, then "18 next, then 16, then 17".
pub fn move_service(reading: &Result<connman::File, Refusal>, number: usize, room: Room) -> Result<Written, Refusal> {
    let service = reading.as_ref().map_err(|refusal| *refusal)?.service(number)?;
    if let Some(line) = service.earliest_without_place() {
        return Err(Fault::NoPlace.at(line));
    }
    write(Some(&service.record()?), room)
}
