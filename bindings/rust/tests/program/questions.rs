//! Each question with its known answer, and with its refusals.
use super::asked;

fn answers(words: &str, answer: &str) {
    assert_eq!(asked(words), (Some(0), format!("{answer}\n"), String::new()), "{words}");
}

fn refuses(words: &str, refusal: &str) {
    let (status, printed, said) = asked(words);
    assert_eq!((status, printed.as_str()), (Some(1), ""), "{words}");
    assert!(said.starts_with(&format!("heddleplume: refused {refusal}: ")) && said.lines().count() == 1, "{words}: {said}");
}

#[test]
fn vectors() {
    answers("place 9 1 0 0", "9 0 3944 11640 0.45224118460464524 0.663042252203013");
    answers("place 9 0.6 0 0.8", "3 9433 0 4829 0.5130770704708993 0.6781914251287162");
    answers("place 9 0.6 -0 8e-1", "3 9433 0 4829 0.5130770704708993 0.6781914251287162");
    answers("nearest 0.6 0 0.8", "3 0.2048909739668598");
    refuses("place 16 1 0 0", "4 BadLevel");
    refuses("place 9 nan nan nan", "6 BadNumber");
    refuses("place 9 1e999 0 0", "6 BadNumber");
    refuses("place 9 0 0 0", "7 OffSphere");
    refuses("nearest 2 0 0", "7 OffSphere");
}

#[test]
fn margins() {
    answers("margin 9 1 0 0", "0.057641718403829145");
    answers("margin 9 0.6 0 0.8", "0.09563424779980778");
    refuses("margin 16 nan 0 0", "4 BadLevel");
    refuses("margin 9 nan nan nan", "6 BadNumber");
    refuses("margin 9 0 0 0", "7 OffSphere");
    assert!(asked("margin 9 nan nan nan").2.ends_with(": the receiver has no fix, keep its feed\n"));
}

#[test]
fn the_plane() {
    answers("round 0 -0", "0 0 0 0 0");
    answers("round -0.25 0", "0 0 0 0.25 0");
    answers("round 0.5 -0.5", "1 0 1 0.7886751345948129 0.5773502691896257");
    answers("round -0.9 -0.9", "0 0 1 0.41961524227066316 0.03923048454132627");
    answers("centre 0 2 0", "-1 1.7320508075688772");
    answers("meet 0 0 2 2 0 2 2 0", "1 1");
    answers("meet 0 0 1 0 -1e-300 1 -1e-300 -1", &format!("-0.{}1 0", "0".repeat(299)));
    refuses("round 33554432 0", "9 TooFar");
    refuses("centre 1 1 1", "10 NotReduced");
    refuses("meet 0 0 1 0 0 1 1 1", "13 NoCrossing");
}

#[test]
fn places() {
    answers("direction 0 4", "1");
    answers("direction 0 19", "7");
    answers("turn 3 1 0 0 ccw", "3 1 1 0");
    answers("turn 3 1 0 0 cw", "3 1 0 1");
    answers("step 0 0 p 3 0 0 1", "4 3 1 0");
    answers("cross 0 0 p 3 0 0 no", "4 3 1 0 NewFace");
    answers("cross 0 0 s 3 3 0 no", "0 3 3 0 FaceEdge");
    answers("cross 0 2 p 14 0 1 yes", "1 14 1 0 NewFace");
    answers("settle 0 0 p 3 0 0", "2 1 0 0 3");
    refuses("direction 0 20", "3 BadFace");
    refuses("step 0 0 p 3 0 0 9", "5 BadRange");
    refuses("step 20 0 p 3 0 0 9", "3 BadFace");
    refuses("settle 0 1 p 3 0 0", "4 BadLevel");
}

#[test]
fn names_of_corners() {
    answers("same 0 4 4 0 2 0 4 2 0", "yes");
    answers("same 0 4 4 0 2 0 2 4 0", "no");
    answers("same 2 4 4 0 2 0 4 2 0", "no");
    answers("first 7 0 1 2 0", "7 1 2 0");
    answers("first 4 0 4 0 2", "0 4 2 0");
    answers("first 3 0 6 0 0", "0 6 0 0");
    answers("first 4 0 0 0 6", "0 0 6 0");
    answers("first 4 2 4 0 2", "4 4 0 2");
    refuses("same 1 0 1 1 1 20 7 0 0", "3 BadFace");
    refuses("same 1 0 1 1 1 0 7 0 0", "4 BadLevel");
    refuses("same 0 0 1 1 1 0 7 0 0", "10 NotReduced");
    refuses("same 0 0 7 0 0 0 1 1 1", "10 NotReduced");
    refuses("same 0 0 7 0 0 0 1 0 0", "11 OutOfFace");
    refuses("same 0 0 1 0 0 0 7 0 0", "11 OutOfFace");
    refuses("first 20 1 7 7 7", "3 BadFace");
    refuses("first 0 1 7 7 7", "4 BadLevel");
    refuses("first 0 0 7 7 7", "10 NotReduced");
    refuses("first 0 0 7 0 0", "11 OutOfFace");
    assert!(asked("first 0 0 7 0 0").2.ends_with(": settle the corner first, on the grid s of the same level\n"));
}

#[test]
fn cells() {
    answers("corners 0 0 1 0 0", "0\n5 1 0\n4 2 0\n2 1 0\n2 0 1\n4 0 2\n5 0 1");
    answers("border 0 0 1 0 0 0 2", "0 4.5 0.8660254037844386 corner\n0 3 1.7320508075688772 corner");
    let pentagon = "3 37.5 0.8660254037844386 corner\n3 38.5 -2.0207259421636934 crossing\n4 37.5 0.8660254037844386 corner";
    answers("pentagon 0 1 6 0 2 0 2", pentagon);
    assert_eq!(asked("border 0 1 1 0 0"), asked("border 0 1 1 0 0 0 6"));
    assert_eq!(asked("pentagon 0 1 6 0 2"), asked("pentagon 0 1 6 0 2 0 5"));
    assert_eq!(asked("border 0 1 1 0 0").1.lines().count(), 6);
    assert_eq!(asked("pentagon 0 1 6 0 2").1.lines().count(), 10);
    refuses("border 0 0 3 0 0", "11 OutOfFace");
    refuses("border 0 0 1 0 0 6 6", "5 BadRange");
    refuses("pentagon 0 1 0 0 0 0 2", "12 NotAdjacent");
}

#[test]
fn the_sphere() {
    answers("root 2", "1.4142135623730951");
    answers("root 0.25", "0.5");
    answers("root -0", "-0");
    answers("root 5e-324", &format!("0.{}22227587494850775", "0".repeat(161)));
    answers("sphere 0 0 0 0", "0.2199307791404606 0.6583691780274996 0.7198475378926182");
    answers("sphere 3 10 63507 -13127.21307056452", "0.5999690033788724 0.000014330225537794448 0.8000232463992577");
    answers("globe6 3 9 9433 0 4829 0 1", "3 0.5999690033788724 0.000014330225537794448 0.8000232463992577 corner");
    assert_eq!(asked("globe6 0 1 1 0 0"), asked("globe6 0 1 1 0 0 0 6"));
    assert_eq!(asked("globe5 0 1 6 0 2"), asked("globe5 0 1 6 0 2 0 5"));
    assert_eq!(asked("globe5 0 1 6 0 2").1.lines().count(), 10);
    refuses("root -1", "6 BadNumber");
    refuses("root inf", "6 BadNumber");
    refuses("sphere 20 1 nan 0", "3 BadFace");
    refuses("sphere 0 1 nan 0", "4 BadLevel");
    refuses("sphere 0 0 nan 0", "6 BadNumber");
    refuses("sphere 0 0 1e300 0", "6 BadNumber");
    refuses("globe6 0 0 3 0 0", "11 OutOfFace");
    refuses("globe5 0 1 0 0 0 0 2", "12 NotAdjacent");
}

/// Each point of a border on the sphere lies where its plane point does, by the question of one point.
#[test]
fn borders_on_both() {
    for (plane, sphere, cell, grid) in
        [("border", "globe6", "0 1 1 0 0", 2), ("pentagon", "globe5", "0 1 6 0 2", 2), ("border", "globe6", "3 9 9433 0 4829", 10)]
    {
        let (plane, sphere) = (asked(&format!("{plane} {cell}")).1, asked(&format!("{sphere} {cell}")).1);
        assert_eq!(plane.lines().count(), sphere.lines().count());
        for (flat, round) in plane.lines().zip(sphere.lines()) {
            let words: Vec<&str> = flat.split(' ').collect();
            let vector = asked(&format!("sphere {} {grid} {} {}", words[0], words[1], words[2])).1;
            assert_eq!(round, format!("{} {} {}", words[0], vector.trim_end(), words[3]));
        }
    }
}
