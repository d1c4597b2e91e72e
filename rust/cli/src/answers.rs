//! What a script's items are answered, as lines of text and as JSON.
use crate::json::{array, object, string};
use crate::number::{address, counted};
use crate::running::Answer;
use crate::script::{Item, Member, What};
use replayframes::Refusal;

/// The line on which a list is refused, at a member or as a whole.
fn refused_line(item: &Item, members: &[Member], member: Option<usize>) -> usize {
    member.and_then(|member| members.get(member)).map_or(item.line, |member| member.line)
}

/// What a request is answered that is done.
fn said(value: Option<u64>) -> String {
    value.map_or_else(|| "done".to_string(), address)
}

/// What a request is answered that is refused.
fn refused(refusal: Refusal) -> String {
    format!("refused ({}): {refusal}", refusal.code())
}

/// The answer to an item: a line with its line number, and one for each member of a list.
pub fn text(item: &Item, answer: &Answer) -> String {
    match &item.what {
        What::One(member) => format!("{}: {} -> {}\n", item.line, member.text, one(answer)),
        What::List(members) => list(item, members, answer),
    }
}

/// The answer to one request, or to a list in one word.
pub fn one(answer: &Answer) -> String {
    match answer {
        Answer::Done(value) => said(*value),
        Answer::All(_) => "all done".to_string(),
        Answer::Refused(refusal, _) => refused(*refusal),
    }
}

/// The answer to a list.
fn list(item: &Item, members: &[Member], answer: &Answer) -> String {
    let head =
        format!("{}: {} list of {}", item.line, item.asker.name, counted(members.len() as u64, "request"));
    match answer {
        Answer::Refused(refusal, member) => {
            let line = refused_line(item, members, *member);
            format!(
                "{head} -> refused at line {line}, and none of it is done ({}): {refusal}\n",
                refusal.code()
            )
        }
        _ => {
            let answered = members.iter().zip(values(answer));
            let lines = answered
                .map(|(member, value)| format!("{}:   {} -> {}\n", member.line, member.text, said(value)));
            format!("{head} -> {}\n", one(answer)) + &lines.collect::<String>()
        }
    }
}

/// The addresses that answer the members of a list.
fn values(answer: &Answer) -> Vec<Option<u64>> {
    match answer {
        Answer::All(values) => values.clone(),
        _ => Vec::new(),
    }
}

/// The answer to an item as a JSON object on a line. Addresses are strings: JSON's numbers are not all whole.
pub fn json(item: &Item, answer: &Answer) -> String {
    let mut fields = vec![
        ("line", item.line.to_string()),
        ("machine", string(&item.asker.name)),
        ("number", item.asker.number.to_string()),
    ];
    match &item.what {
        What::One(member) => fields.push(("request", string(&member.text))),
        What::List(members) => fields.push(("requests", json_members(members, answer))),
    }
    fields.extend(json_answer(item, answer));
    object(&fields) + "\n"
}

/// The requests of a list, each with the address that answers it.
fn json_members(members: &[Member], answer: &Answer) -> String {
    let values = values(answer);
    let objects = members.iter().enumerate().map(|(i, member)| {
        let mut fields = vec![("line", member.line.to_string()), ("request", string(&member.text))];
        fields.extend(values.get(i).copied().flatten().map(json_address));
        object(&fields)
    });
    array(&objects.collect::<Vec<_>>())
}

/// An address as a field.
fn json_address(value: u64) -> (&'static str, String) {
    ("address", string(&address(value)))
}

/// The fields that say the answer.
fn json_answer(item: &Item, answer: &Answer) -> Vec<(&'static str, String)> {
    match answer {
        Answer::Done(value) => {
            std::iter::once(("answer", string("done"))).chain(value.map(json_address)).collect()
        }
        Answer::All(_) => vec![("answer", string("done"))],
        Answer::Refused(refusal, member) => {
            let at = match &item.what {
                What::List(members) => {
                    Some(("refused_line", refused_line(item, members, *member).to_string()))
                }
                What::One(_) => None,
            };
            let reason = [("code", refusal.code().to_string()), ("reason", string(&refusal.to_string()))];
            std::iter::once(("answer", string("refused"))).chain(reason).chain(at).collect()
        }
    }
}
