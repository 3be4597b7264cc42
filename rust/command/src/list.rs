//! Records to lines of text.

use crate::trouble::{self, say, Trouble};
use crate::{files, stream};

/// Writes a line for each record, up to the first that is refused.
pub fn list(file: Option<&str>) -> Result<u8, Trouble> {
    let bytes = files::read(file)?;
    let mut text = String::new();
    let mut refused = None;
    for item in stream::items(&bytes) {
        match item {
            Ok(item) => text += &format!("{}\n", item.text()),
            Err(why) => refused = Some(why),
        }
    }
    say(text)?;
    match refused {
        Some(refused) => Err(Trouble::Failed(refused.text(files::name(file)))),
        None => Ok(trouble::DONE),
    }
}
