//! Objects removed, pictures retargeted.

use crate::helpers::{Folder, PICTURE};

const MARKS: &[u8] = b"P5\n3 2\n255\n\x00\x02\x01\x00\x00\x00";

#[test]
fn remove_says_how_it_ended() {
    let folder = Folder::worked("remove");
    folder.put("marks.pgm", MARKS);
    let ended = folder.served("remove picture.pgm marks.pgm -o left.pgm");
    assert_eq!(ended, "done, 1 seam cut\n");
    let left = b"P5\n2 2\n255\n\x0a\x28\x0a\x32";
    assert_eq!(folder.get("left.pgm"), left);
    let ended = folder.served("remove picture.pgm marks.pgm -o left.pgm --budget 0");
    assert_eq!(ended, "spent, 0 seams cut\n");
    assert_eq!(folder.get("left.pgm"), PICTURE);
}

#[test]
fn remove_tells_on_standard_error_where_the_picture_is_output() {
    let folder = Folder::worked("piped");
    let ran = folder.run_with("remove picture.pgm - -o -", MARKS);
    assert_eq!((ran.status, ran.error.as_str()), (0, "done, 1 seam cut\n"));
    assert_eq!(ran.out, b"P5\n2 2\n255\n\x0a\x28\x0a\x32");
}

#[test]
fn marks_must_fit_the_picture() {
    let folder = Folder::worked("marks");
    let refused = |marks: &[u8]| {
        folder.put("marks.pgm", marks);
        let ran = folder.run("remove picture.pgm marks.pgm -o left.pgm");
        assert_eq!(ran.status, 1);
        ran.error
    };
    let error = refused(b"P5\n3 2\n255\n\x00\x02\x03\x00\x00\x00");
    assert_eq!(
        error,
        "multisize: marks.pgm: refused (5): a mark is over 2; that of column 2 in row 0 is 3; \
         a picture in black and white goes with --take or --keep\n"
    );
    let turned = refused(b"P5\n2 3\n255\n\x00\x02\x01\x00\x00\x00");
    let sizes = "the picture is 3 by 2, and its marks are 2 by 3";
    let told = format!("multisize: marks.pgm: refused (4): {sizes}\n");
    assert_eq!(turned, told);
    let colours = refused(&[b"P6\n3 2\n255\n".as_slice(), &[0; 18]].concat());
    let told = "multisize: marks.pgm: refused (4): marks are grey, and this picture is rgb";
    assert!(colours.starts_with(told));
    assert_eq!(
        folder.names(),
        ["marks.pgm", "picture.multi", "picture.pgm"]
    );
}

#[test]
fn retarget_takes_rows_and_columns() {
    let folder = Folder::worked("retarget");
    let total = folder.served("retarget picture.pgm --columns 2 -o left.pgm");
    assert_eq!(total, "total 80\n");
    assert_eq!(folder.get("left.pgm"), b"P5\n1 2\n255\n\x0a\x32");
    let total = folder.served("retarget picture.pgm --rows 1 -o left.pgm");
    assert_eq!(total, "total 60\n");
    assert_eq!(folder.get("left.pgm"), b"P5\n3 1\n255\n\x0a\x0a\x28");
    let ran = folder.run("retarget picture.pgm --rows 2 --columns 0 -o none.pgm");
    assert_eq!(ran.status, 1);
    assert!(ran
        .error
        .starts_with("multisize: picture.pgm: refused (7): "));
}
