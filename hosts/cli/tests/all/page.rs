//! Pages: where they are written and what is refused. What their scripts do is
//! tested by `tests/page`.

use crate::helpers::{Folder, BROKEN, FILE};

#[test]
fn a_page_is_named_for_its_file_or_by_its_title() {
    let folder = Folder::worked("page");
    assert_eq!(folder.served("page picture.multi -o page.html"), "");
    let page = String::from_utf8(folder.get("page.html")).unwrap();
    assert!(page.starts_with("<!doctype html>\n"));
    assert!(page.contains("<h1>picture</h1>"));
    let titled = folder.served("page picture.multi -o - --title <valley>");
    assert!(titled.contains("<h1>&lt;valley&gt;</h1>"));
    assert!(titled.contains("data-name=\"picture\""));
    let ran = folder.run_with("page - -o -", FILE);
    assert_eq!((ran.status, ran.out), (0, folder.get("page.html")));
}

#[test]
fn a_file_that_is_not_accepted_has_no_page() {
    let folder = Folder::new("no-page");
    folder.put("other.multi", BROKEN);
    let ran = folder.run("page other.multi -o page.html");
    assert_eq!(ran.status, 1);
    assert!(ran
        .error
        .starts_with("multisize: other.multi: refused (10): "));
    assert_eq!(folder.names(), ["other.multi"]);
}

#[test]
fn a_page_is_not_a_picture() {
    let folder = Folder::worked("page-name");
    let ran = folder.run("page picture.multi -o page.png");
    assert_eq!(ran.status, 2);
    assert!(ran.error.contains("a page isn't a picture"));
}
