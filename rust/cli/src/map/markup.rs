//! A look at markup that tests take: whether every element ends where it should.

/// Whether every element that begins ends, in the reverse order.
pub fn is_balanced(markup: &str) -> bool {
    let mut open: Vec<&str> = Vec::new();
    for tag in markup.split('<').skip(1) {
        let (tag, whole) = (tag.split('>').next().unwrap_or(""), tag.contains('>'));
        let name = tag.split([' ', '\n']).next().unwrap_or("");
        match name.strip_prefix('/') {
            Some(ended) if open.pop() != Some(ended) => return false,
            None if !tag.ends_with('/') => open.push(name),
            _ if !whole => return false,
            _ => {}
        }
    }
    open.is_empty()
}

#[test]
fn elements_that_do_not_end_are_seen() {
    assert!(is_balanced("<a><b c='1'/><d>text</d></a>"));
    assert!(!is_balanced("<a><b></a></b>"));
    assert!(!is_balanced("<a>"));
    assert!(!is_balanced("</a>"));
    assert!(!is_balanced("<a/> <b"));
}
