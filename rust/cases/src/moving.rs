//! Cases of the move of a ConnMan service to iwd.
//!
//! A case is a file name, a service number, the lengths of the buffers lent for the new name and the new file, and a file. Both
//! buffers are full of the byte `.` before. The answer is `good` with how many bytes are new in each, or `refused` with the
//! number and the line, then all bytes of the two buffers, and behind a good answer whether what is new in them reads as the join
//! record of the service.

use crate::ask::{move_service, read, read_service};
use crate::rooms::Rooms;
use crate::show::Lines;
use crate::written::{decoded, number, parts};
use qewaris::raw;

/// The answer to a case.
pub fn answer(case: &[u8]) -> Result<Vec<u8>, String> {
    let [name, service, name_room, file_room, file] = parts(case)?;
    let service = number(service).ok_or("there is no service number")?;
    let mut rooms = Rooms::new(name_room, file_room)?;
    let (name, file) = (decoded(name), decoded(file));
    let told = move_service((&name, &file), service, &mut rooms.name, &mut rooms.file);
    let mut lines = Lines::default();
    rooms.show(&mut lines, told);
    if told.number == 0 {
        let (new_name, new_file) = (&rooms.name[..told.name_len], &rooms.file[..told.file_len]);
        let own = read_service(raw::qewaris_service_record, &name, &file, service);
        let same = own.number == 0 && own == read(raw::qewaris_iwd_record, new_name, new_file);
        lines.key("reads back", if same { "yes" } else { "no" });
    }
    Ok(lines.into_bytes())
}
