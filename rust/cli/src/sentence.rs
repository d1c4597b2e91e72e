//! What happened, in a sentence, for people who watch.
use crate::number::{address, counted};
use crate::running::Answer;
use crate::script::{Item, Member, What};
use replayframes::{Request, Which};

/// What an item's answer means.
pub fn of(item: &Item, answer: &Answer) -> String {
    let name = &item.asker.name;
    match (&item.what, answer) {
        (What::One(member), Answer::Done(value)) => done(name, member, *value),
        (What::List(members), Answer::Refused(refusal, member)) => {
            let place = member.map_or_else(String::new, |member| format!(" request {} of", member + 1));
            let list = counted(members.len() as u64, "request");
            format!(
                "Refused ({}) at{place} the list's {list}: {refusal} Nothing of it is done.",
                refusal.code()
            )
        }
        (_, Answer::Refused(refusal, _)) => format!("Refused ({}): {refusal}", refusal.code()),
        (What::List(members), _) => format!("All done: {}.", counted(members.len() as u64, "request")),
        (What::One(_), Answer::All(_)) => "All done.".to_string(),
    }
}

/// Who uses a set, in words.
fn users(which: Which) -> &'static str {
    match which {
        Which::Processors => "processors",
        Which::Devices => "devices",
    }
}

/// What a request's answer means that is done.
fn done(name: &str, member: &Member, value: Option<u64>) -> String {
    let at = value.map_or_else(String::new, address);
    match member.request {
        Request::AddZone => format!("Done: {name} is there, with nothing yet."),
        Request::RemoveZone => format!("Done: {name} is gone."),
        Request::RemoveZoneWhole => format!("Done: {name} is gone, and its frames are free again, all zero."),
        Request::Insert(which, _) => format!("Done: the {} of {name} reach that region.", users(which)),
        Request::Remove(which, _) => {
            format!("Done: the {} of {name} reach that region no longer.", users(which))
        }
        Request::Translate { .. } => format!("It is {at} on the host."),
        Request::Alloc => format!("Done: {name} owns the frame at {at}, which is all zero."),
        Request::AllocContiguous { size, .. } => {
            format!("Done: {name} owns {} from {at} on, all zero.", counted(size, "frame"))
        }
        Request::Dealloc { .. } => "Done: the frame is free again, all zero.".to_string(),
        Request::DeallocContiguous { count, .. } => {
            format!("Done: {} free again, all zero.", counted(count, "frame"))
        }
    }
}
