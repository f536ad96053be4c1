//! The command `mover-reel`, on reels and folders of its own, and the script that builds it.

mod command;

use command::{ended, folder, said, scratch, written, Ended, Script};
use reference::sequences::{of_size, one_of_each, transport, Sequence};
use std::ffi::OsStr;
use std::fs;
use std::path::Path;
use std::process::Command;
use weight_mover::{pack, report, text, Refusal};

fn run<A: AsRef<OsStr>>(arguments: impl IntoIterator<Item = A>) -> Ended {
    ended(Command::new(env!("CARGO_BIN_EXE_mover-reel")).args(arguments))
}

fn complained(text: String) -> Ended {
    (1, String::new(), text)
}

/// One image of each number, the first of them twice more, and three that cost as much as there is for an edge.
fn mixed() -> Vec<u8> {
    let each: Vec<Vec<u8>> = one_of_each().into_iter().map(|(_, image)| image).collect();
    let dear = transport(65_535, 16_777_216).image();
    let twice = [&each[2], &each[12]];
    let images = each.iter().chain(twice).chain([&dear; 3]).chain([&each[0]]);
    Sequence::of(images).reel()
}

const MIXED: &str = "\
images                    20
accepted                   6
refused                   14
refused 1                  2  the number of vertices is 0 or above 64
refused 2                  1  more than 512 edges, or a table or buffer of the wrong length
refused 3                  1  an edge's ends are wrong, or an edge comes twice or out of order
refused 5                  1  some vertex cannot be reached from vertex 0
refused 6                  1  a total is above 16,777,216
refused 7                  1  the two totals differ
refused 8                  1  the tree's root or a parent is wrong, or there is a second root
refused 9                  1  a vertex of the tree and its parent share no edge
refused 10                 1  a chain of the tree's parents misses the root
refused 11                 1  the image has under 36 or over 65,536 bytes
refused 12                 2  a section of the image is out of place
refused 13                 1  byte 1 of the image is not 0, a section has the wrong length, or a number is too large for an image
sum of costs   3298484551707
greatest cost  1099494850560
first image               16  with the greatest cost, counted from 0
";

const MIXED_CSV: &str = "\
item,value,remark
images,20,
accepted,6,
refused,14,
refused 1,2,the number of vertices is 0 or above 64
refused 2,1,\"more than 512 edges, or a table or buffer of the wrong length\"
refused 3,1,\"an edge's ends are wrong, or an edge comes twice or out of order\"
refused 5,1,some vertex cannot be reached from vertex 0
refused 6,1,\"a total is above 16,777,216\"
refused 7,1,the two totals differ
refused 8,1,\"the tree's root or a parent is wrong, or there is a second root\"
refused 9,1,a vertex of the tree and its parent share no edge
refused 10,1,a chain of the tree's parents misses the root
refused 11,1,\"the image has under 36 or over 65,536 bytes\"
refused 12,2,a section of the image is out of place
refused 13,1,\"byte 1 of the image is not 0, a section has the wrong length, or a number is too large for an image\"
sum of costs,3298484551707,
greatest cost,1099494850560,
first image,16,\"with the greatest cost, counted from 0\"
";

#[test]
fn whole_reports() {
    let file = written("mixed.reel", mixed());
    assert_eq!(run([&file]), said(MIXED));
    assert_eq!(run([Path::new("--csv"), &file]), said(MIXED_CSV));
}

#[test]
fn all_accepted() {
    let file = written(
        "accepted.reel",
        pack([of_size(100), of_size(65_536)]).expect("small"),
    );
    let text = "\
images           2
accepted         2
refused          0
sum of costs   162
greatest cost   81
first image      0  with the greatest cost, counted from 0
";
    assert_eq!(run([&file]), said(text));
    let csv = "\
item,value,remark
images,2,
accepted,2,
refused,0,
sum of costs,162,
greatest cost,81,
first image,0,\"with the greatest cost, counted from 0\"
";
    assert_eq!(run([Path::new("--csv"), &file]), said(csv));
}

/// Whether there are images that are all refused, or no images.
#[test]
fn none_accepted() {
    let file = written("refused.reel", pack(["", "", "no image"]).expect("small"));
    let text = "\
images         3
accepted       0
refused        3
refused 11     3  the image has under 36 or over 65,536 bytes
sum of costs   0
greatest cost  0
first image    3  no image was accepted: their number
";
    assert_eq!(run([&file]), said(text));
    let csv = "\
item,value,remark
images,3,
accepted,0,
refused,3,
refused 11,3,\"the image has under 36 or over 65,536 bytes\"
sum of costs,0,
greatest cost,0,
first image,3,no image was accepted: their number
";
    assert_eq!(run([Path::new("--csv"), &file]), said(csv));

    let file = written("no-images.reel", [0, 0]);
    let text = "\
images         0
accepted       0
refused        0
sum of costs   0
greatest cost  0
first image    0  no image was accepted: their number
";
    assert_eq!(run([&file]), said(text));
}

/// A reel that is refused, or cannot be read, ends with a message, as text and as CSV.
#[test]
fn refused_reels() {
    let reel = mixed();
    for length in [0, 1, 161, 162, reel.len() - 1] {
        let file = written("cut.reel", &reel[..length]);
        let complaint = format!(
            "{}: refused 14: the reel is shorter than its directory, or an image in it is out of order or out of \
             bounds\n",
            file.display()
        );
        assert_eq!(run([&file]), complained(complaint.clone()));
        assert_eq!(run([Path::new("--csv"), &file]), complained(complaint));
    }
    for missing in [scratch("not-there.reel"), folder("no-file")] {
        let (status, output, complaint) = run([&missing]);
        assert_eq!((status, &output[..]), (1, ""));
        assert!(complaint.starts_with(&format!("{}: ", missing.display())));
        assert_eq!(run([Path::new("--csv"), &missing]), (status, output, complaint));
    }
}

#[test]
fn usage() {
    let file = written("usage.reel", [0, 0]);
    let file = file.to_str().expect("a name");
    let wrong: [&[&str]; 9] = [
        &[],
        &[file, file],
        &["--csv"],
        &["--csv", file, file],
        &["--pack"],
        &["--pack", file],
        &["--pack", file, file, file],
        &["--text", file],
        &["-x"],
    ];
    for arguments in wrong {
        let (status, output, usage) = run(arguments);
        assert_eq!((status, &output[..]), (2, ""), "{arguments:?}");
        assert!(usage.starts_with("usage: mover-reel FILE "), "{arguments:?}");
        assert!(["--csv FILE", "--pack FOLDER FILE"]
            .iter()
            .all(|way| usage.contains(way)));
        assert_eq!(run(["--help"]), said(&usage));
    }
}

/// Above 4,096 images each part is told on standard error, and below nothing; what is printed is the same.
#[test]
fn progress() {
    let image = transport(3, 3).image();
    for count in [1, 4_095, 4_096, 4_097, 8_192, 8_193, 65_535] {
        let reel = pack(vec![&image; count]).expect("small images");
        let (status, output, told) = run([written("long.reel", reel)]);
        let parts = (4_096..count).step_by(4_096).chain([count]);
        let lines = parts.filter(|_| count > 4_096);
        let lines: String = lines.map(|done| format!("{done} of {count} images\n")).collect();
        assert_eq!((status, told), (0, lines), "{count} images");
        let width = (9 * count).to_string().len();
        let text = format!(
            "\
images         {count:width$}
accepted       {count:width$}
refused        {0:width$}
sum of costs   {1:width$}
greatest cost  {2:width$}
first image    {0:width$}  with the greatest cost, counted from 0
",
            0,
            9 * count,
            9
        );
        assert_eq!(output, text);
    }
}

/// Few images are not told part by part, however long they are.
#[test]
fn few_long_images() {
    let (directory, length) = (18, 65 << 20);
    let mut reel = vec![2, 0];
    for number in [directory, length, directory + length, 0u32] {
        reel.extend(number.to_le_bytes());
    }
    let path = written("bytes.reel", reel);
    let file = fs::OpenOptions::new().write(true).open(&path).expect("the file");
    file.set_len((directory + length).into()).expect("room");
    let text = "\
images         2
accepted       0
refused        2
refused 11     2  the image has under 36 or over 65,536 bytes
sum of costs   0
greatest cost  0
first image    2  no image was accepted: their number
";
    assert_eq!(run([&path]), said(text));
    fs::remove_file(&path).expect("removed");
}

/// A patch that carries so many grains over an edge of length 10.
fn patch(grains: u32) -> String {
    format!("title x\nvertices 2\nedge 0 1 10\nmu {grains} 0\nnu 0 {grains}\n")
}

fn image_of(patch: &str) -> Vec<u8> {
    text::parse(patch)
        .expect("sound")
        .patch
        .image()
        .expect("small numbers")
}

/// Images as they are, patches converted, by rising name; other files and folders stay out.
#[test]
fn packed_folder() {
    let shots = folder("shots");
    let no_image = b"no image".to_vec();
    let mut expected = vec![
        ("A.patch".to_string(), image_of(&patch(4))),
        ("a.image".into(), no_image.clone()),
    ];
    fs::write(shots.join("a.image"), &no_image).expect("written");
    fs::write(shots.join("A.patch"), patch(4)).expect("written");
    for k in 10..20 {
        let name = format!("shot {k}.patch");
        fs::write(shots.join(&name), patch(k)).expect("written");
        expected.push((name, image_of(&patch(k))));
    }
    let tree = patch(7) + "root 1\nparents 1 1\n";
    fs::write(shots.join("tree.patch"), &tree).expect("written");
    fs::write(shots.join("z.image"), image_of(&tree)).expect("written");
    expected.push(("tree.patch".into(), image_of(&tree)));
    expected.push(("z.image".into(), image_of(&tree)));
    for other in ["notes.txt", "a.image.bak", "image", ".patch", "B.PATCH"] {
        fs::write(shots.join(other), "other").expect("written");
    }
    fs::create_dir(shots.join("old.image")).expect("a folder");

    let listing: String = expected
        .iter()
        .enumerate()
        .map(|(index, (name, _))| format!("{index:2}  {name}\n"))
        .collect();
    assert!(listing.starts_with(" 0  A.patch\n 1  a.image\n 2  shot 10.patch\n"));
    assert!(listing.ends_with("11  shot 19.patch\n12  tree.patch\n13  z.image\n"));
    let file = scratch("shots.reel");
    let _ = fs::remove_file(&file);
    assert_eq!(run([Path::new("--pack"), &shots, &file]), said(&listing));
    let reel = fs::read(&file).expect("a reel");
    let images: Vec<&Vec<u8>> = expected.iter().map(|(_, image)| image).collect();
    assert_eq!(reel, Sequence::of(&images).reel());

    let told = report(&reel).expect("in order");
    assert_eq!((told.count(), told.accepted, told.tally[11]), (14, 13, 1));
    assert_eq!(
        (told.sum, told.greatest, told.first),
        (10 * (4 + 145 + 7 + 7), 190, 11)
    );
    let (status, output, _) = run([&file]);
    assert_eq!(status, 0);
    assert!(output.starts_with("images           14\naccepted         13\nrefused           1\n"));

    // Once more, over what is there.
    fs::remove_file(shots.join("A.patch")).expect("removed");
    assert_eq!(run([Path::new("--pack"), &shots, &file]).0, 0);
    assert_eq!(
        fs::read(&file).expect("a reel"),
        Sequence::of(&images[1..]).reel()
    );
}

/// A patch that cannot be converted is told with its file, and nothing is written.
#[test]
fn patches_without_an_image() {
    let shots = folder("unsound");
    let file = scratch("unsound.reel");
    let _ = fs::remove_file(&file);
    fs::write(shots.join("a.patch"), patch(1)).expect("written");
    let path = shots.join("b.patch");
    let name = path.display();
    let cases = [
        (
            "vertices 2\nedge 0 one 3\n",
            format!("{name}, line 2: \"one\" is not a whole number\n"),
        ),
        (
            "vertices 1\nmu 3\nweights after 0.1\n",
            format!(
                "{name}, line 3: the weight 0.1 of vertex 0 is refused 16: a weight is no whole number of grains\n"
            ),
        ),
        (
            "vertices 0\nmu\nnu\n",
            format!("{name}: {}\n", Refusal::VertexCount),
        ),
    ];
    for (content, complaint) in cases {
        fs::write(&path, content).expect("written");
        assert_eq!(run([Path::new("--pack"), &shots, &file]), complained(complaint));
        assert!(!file.exists());
    }
    fs::write(&path, [0xff, 0xfe]).expect("written");
    let (status, output, complaint) = run([Path::new("--pack"), &shots, &file]);
    assert_eq!((status, &output[..]), (1, ""));
    assert!(complaint.starts_with(&format!("{name}: ")), "{complaint}");
    assert!(!file.exists());

    // What is converted need not be sound: the library refuses it later.
    fs::write(&path, "vertices 1\nmu 3\nnu 4\n").expect("written");
    assert_eq!(
        run([Path::new("--pack"), &shots, &file]),
        said("0  a.patch\n1  b.patch\n")
    );
    let told = report(&fs::read(&file).expect("a reel")).expect("in order");
    assert_eq!((told.accepted, told.tally[7]), (1, 1));
}

/// An empty folder is a sequence of no images, and is remarked; one that is not there is an error.
#[test]
fn empty_folders() {
    let shots = folder("empty");
    fs::write(shots.join("notes.txt"), "nothing").expect("written");
    let file = scratch("empty.reel");
    let remark = format!("{}: there is no image and no patch in it\n", shots.display());
    assert_eq!(
        run([Path::new("--pack"), &shots, &file]),
        (0, String::new(), remark)
    );
    assert_eq!(fs::read(&file).expect("a reel"), [0, 0]);

    let missing = scratch("no-such-folder");
    fs::remove_file(&file).expect("removed");
    let (status, output, complaint) = run([Path::new("--pack"), &missing, &file]);
    assert_eq!((status, &output[..]), (1, ""));
    assert!(complaint.starts_with(&format!("{}: ", missing.display())));
    assert!(!file.exists());
    let (status, output, complaint) = run([Path::new("--pack"), &shots, &missing.join("x.reel")]);
    assert_eq!((status, &output[..]), (1, ""));
    assert!(complaint.starts_with(&format!("{}", missing.display())));
}

/// The script at the top builds the library and the command, but just once, and then is the command.
#[test]
fn script_builds_once() {
    let built = env!("CARGO_BIN_EXE_mover-reel");
    let script = Script::new("mover-reel", built, "a.patch", &patch(5));

    let (status, output, usage) = script.run("", &[]);
    assert_eq!((status, &output[..]), (2, ""));
    assert_eq!(script.run("", &["--help"]), said(&usage));
    assert!(usage.contains("--pack FOLDER FILE"), "{usage}");
    assert_eq!(script.calls(), "");

    let pack = ["--pack", ".", "a b.reel"];
    let (status, output, complaint) = script.run("no such compiler", &pack);
    assert_eq!((status, &output[..]), (1, ""));
    assert!(
        complaint.ends_with(" ... failed\nno such compiler\n"),
        "{complaint}"
    );
    assert_eq!(script.calls(), script.building());

    let (status, output, told) = script.run("", &pack);
    assert_eq!((status, &output[..]), (0, "0  a.patch\n"));
    assert!(told.lines().all(|line| line.ends_with(" ... done")), "{told}");
    assert_eq!(script.calls(), script.building());

    let (status, output, told) = script.run("not again", &["a b.reel"]);
    assert_eq!((status, &told[..]), (0, ""));
    assert!(
        output.starts_with("images          1\naccepted        1\n"),
        "{output}"
    );
    assert_eq!(script.run("", &["a b.reel", "x"]).0, 2);
    assert_eq!(script.run("", &["x"]).0, 1);
    assert_eq!(script.calls(), "");
}
