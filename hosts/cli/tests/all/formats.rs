//! Pictures of other formats, too large ones, and damaged ones: what is told.

use crate::helpers::{Folder, FILE, PICTURE};
use multisize::{png, Picture, Size};

/// The line of an error about a file.
fn told(folder: &Folder, line: &str, name: &str) -> String {
    let ran = folder.run(line);
    assert_eq!(ran.status, 1, "{line}: {}", ran.error);
    let start = format!("multisize: {name}: refused ");
    let rest = ran
        .error
        .strip_prefix(&start)
        .unwrap_or_else(|| panic!("{}", ran.error));
    rest.trim_end().to_string()
}

#[test]
fn another_format_is_named_with_a_pipe_that_reads_it() {
    let folder = Folder::worked("other");
    folder.put("photo.jpg", b"\xff\xd8\xff\xe0\0\x10JFIF");
    assert_eq!(
        told(&folder, "carve photo.jpg 300 -o narrow.png", "photo.jpg"),
        "(1): it is JPEG, which isn't read as a picture; this reads it: jpegtopnm photo.jpg | \
         pamscale -xyfit 512 512 | multisize carve - 300 -o narrow.png"
    );
    assert_eq!(
        told(
            &folder,
            "remove picture.pgm --take photo.jpg -o a.png",
            "photo.jpg"
        ),
        "(1): it is JPEG, which isn't read as a picture; this reads it: jpegtopnm photo.jpg | \
         pamscale -xyfit 512 512 | multisize remove picture.pgm --take - -o a.png"
    );
    folder.put("photo.webp", b"RIFF\x10\0\0\0WEBPVP8 ");
    assert_eq!(
        told(&folder, "build photo.webp -o photo.multi", "photo.webp"),
        "(1): it is WebP, which isn't read as a picture; this reads it: dwebp photo.webp -ppm -o - | \
         pamscale -xyfit 512 512 | multisize build - -o photo.multi"
    );
    let ran = folder.run_with("carve - 300 -o narrow.png", b"GIF89a");
    assert!(ran.error.ends_with(
        "this reads it: giftopnm | pamscale -xyfit 512 512 | multisize carve - 300 -o narrow.png\n"
    ));
}

#[test]
fn what_is_no_picture_is_told() {
    let folder = Folder::worked("none");
    folder.put("empty.ppm", b"");
    folder.put("text.ppm", b"hello");
    folder.put("deep.pgm", b"P5\n1 1\n65535\nab");
    let served = "PNG and Netpbm P5 and P6 with samples up to 255 are read";
    let carved = |name: &str| told(&folder, &format!("carve {name} 1 -o out.pgm"), name);
    assert_eq!(carved("empty.ppm"), format!("(1): it is empty; {served}"));
    let unknown = "it is no picture that is known here";
    assert_eq!(carved("text.ppm"), format!("(1): {unknown}; {served}"));
    assert_eq!(
        carved("deep.pgm"),
        "(1): its Netpbm header breaks its form, or its samples aren't up to 255; this reads \
         deeper samples: pamdepth 255 deep.pgm | multisize carve - 1 -o out.pgm"
    );
    assert_eq!(
        carved("picture.multi"),
        "(1): it is a multi-size file; multisize show writes its picture at a width"
    );
    folder.put("a.png", &png::SIGNATURE);
    assert_eq!(
        told(&folder, "check a.png", "a.png"),
        "(1): it is PNG, and no multi-size file; multisize build makes one of a picture"
    );
}

#[test]
fn a_picture_over_the_limit_gets_its_size_and_a_pipe() {
    let folder = Folder::new("limit");
    folder.put("wide.ppm", b"P6\n4000 3000\n255\n");
    assert_eq!(
        told(&folder, "carve wide.ppm 60% -o narrow.png", "wide.ppm"),
        "(3): width or height is over 512; it is 4000 by 3000; made smaller it is read: \
         pamscale -xyfit 512 512 wide.ppm | multisize carve - 60% -o narrow.png"
    );
    let small = Picture::new(Size::grey(2, 1), vec![7, 9]).unwrap();
    let mut file = png::write(&small);
    // The sides and the checksum of the head.
    file[16..24].copy_from_slice(b"\0\0\x0f\xa0\0\0\x0b\xb8");
    file[29..33].copy_from_slice(&[0xd0, 0xde, 0x18, 0x3b]);
    folder.put("wide.png", &file);
    assert_eq!(
        told(&folder, "carve wide.png 60% -o narrow.png", "wide.png"),
        "(3): the PNG is 4000 by 3000, and each side must be 1 to 512; made smaller it is read: \
         pngtopnm wide.png | pamscale -xyfit 512 512 | multisize carve - 60% -o narrow.png"
    );
}

/// The head of a PNG with alpha, and a Netpbm bitmap: their pipes keep the size.
#[test]
fn what_only_needs_another_depth_keeps_its_size() {
    let folder = Folder::new("depth");
    let head = b"\0\0\0\x0dIHDR\0\0\0\x02\0\0\0\x01\x08\x06\0\0\0\xf4\x22\x7f\x8a";
    folder.put("clear.png", &[png::SIGNATURE.as_slice(), head].concat());
    assert_eq!(
        told(&folder, "carve clear.png 1 -o a.png", "clear.png"),
        "(1): a PNG with alpha isn't read; without that it is read: \
         pngtopnm clear.png | pamdepth 255 | multisize carve - 1 -o a.png"
    );
    let head = b"\0\0\0\x0dIHDR\0\0\x07\x80\0\0\x04\x38\x08\x06\0\0\0\xe8\xd3\xc1\x43";
    folder.put("screen.png", &[png::SIGNATURE.as_slice(), head].concat());
    assert_eq!(
        told(&folder, "carve screen.png 60% -o a.png", "screen.png"),
        "(1): a PNG with alpha isn't read; without that it is read: pngtopnm screen.png | \
         pamdepth 255 | pamscale -xyfit 512 512 | multisize carve - 60% -o a.png"
    );
    folder.put("map.pbm", b"P4\n8 1\n.");
    assert_eq!(
        told(&folder, "carve map.pbm 1 -o a.png", "map.pbm"),
        "(1): it is Netpbm of another sort (P4), which isn't read as a picture; this reads it: \
         pamdepth 255 map.pbm | multisize carve - 1 -o a.png"
    );
}

#[test]
fn a_file_gets_the_part_of_a_meaning_that_applies() {
    let folder = Folder::worked("parts");
    assert_eq!(
        told(&folder, "check picture.pgm", "picture.pgm"),
        "(1): the text breaks its form"
    );
    let text = String::from_utf8(FILE.to_vec()).unwrap();
    folder.put("few.multi", text.replace("(row 10 50 40)\n", "").as_bytes());
    assert_eq!(
        told(&folder, "info few.multi", "few.multi"),
        "(4): the number of rows, samples or map numbers isn't what the size says"
    );
}

#[test]
fn a_damaged_png_is_told() {
    let folder = Folder::new("damaged");
    let small = Picture::new(Size::grey(2, 1), vec![7, 9]).unwrap();
    let file = png::write(&small);
    folder.put("short.png", &file[..file.len() - 1]);
    let short = told(&folder, "carve short.png 1 -o out.pgm", "short.png");
    assert_eq!(short, "(1): the PNG is cut short");
    let mut changed = file.clone();
    changed[45] ^= 1;
    folder.put("changed.png", &changed);
    let wrong = told(&folder, "build changed.png -o out", "changed.png");
    assert_eq!(
        wrong,
        "(1): the PNG is damaged: the checksum of a part is wrong"
    );
}

#[test]
fn causes_have_their_numbers() {
    let folder = Folder::worked("causes");
    folder.put("short.pgm", &PICTURE[..PICTURE.len() - 1]);
    let wide = Picture::new(Size::grey(80, 70), vec![7; 5600]).unwrap();
    folder.put("wide.png", &png::write(&wide));
    for (line, name, cause) in [
        ("carve short.pgm 2 -o a", "short.pgm", "(4): a picture of 3 by 2 grey has 6 samples, and here are 5"),
        ("build picture.pgm --depth=3 -o a", "picture.pgm", "(6): a picture 3 wide allows a depth of at most 2, not 3"),
        ("build picture.pgm --growth 2 -o a", "picture.pgm", "(6): a picture 3 wide allows with depth 2 a growth of at most 1, not 2"),
        ("build picture.pgm --depth 0 --growth 1 -o a", "picture.pgm", "(6): a picture 3 wide allows with depth 0 a growth of at most 0, not 1"),
        ("retarget picture.pgm --rows 2 -o a", "picture.pgm", "(7): a row and a column must be left; the picture is 3 by 2, and 2 rows and 0 columns were asked"),
        ("retarget wide.png --rows 65 -o a", "wide.png", "(7): at most 64 rows and 64 columns are removed; 65 rows and 0 columns were asked"),
    ] {
        assert_eq!(told(&folder, line, name), cause);
    }
    assert_eq!(folder.get("picture.multi"), FILE);
}
