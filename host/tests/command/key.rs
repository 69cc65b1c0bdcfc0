//! `mittenhelm key`.

use crate::run::printed;

#[test]
fn a_cell() {
    let page = "\
key        71 (0x47)
level      2
cell key   yes
parent     8
children   568 569 570 571 572 573 574 575
half size  0.125
centre     0.375 0.375 0.375

corner  vertex              cells on its sides 0 to 7
0       0x8e00000000000000  71 70 69 68 67 66 65 64
1       0x9c00000000000000  78 71 76 69 74 67 72 65
2       0xaa00000000000000  85 84 71 70 81 80 67 66
3       0xb800000000000000  92 85 78 71 88 81 74 67
4       0xc600000000000000  99 98 97 96 71 70 69 68
5       0xd400000000000000  106 99 104 97 78 71 76 69
6       0xe200000000000000  113 112 99 98 85 84 71 70
7       0xf000000000000000  120 113 106 99 92 85 78 71
";
    assert_eq!(printed(&["key", "71"]), page);
    assert_eq!(printed(&["key", "0x47"]), page);
}

#[test]
fn a_corner_on_the_outside_has_no_vertex() {
    let page = printed(&["key", "8"]);
    assert!(page.contains("\n0       none\n"), "{page}");
    assert!(page.ends_with("\n7       0xf000000000000000  15 14 13 12 11 10 9 8\n"), "{page}");
}

#[test]
fn refusals_in_words() {
    let page = printed(&["key", "16"]);
    assert!(page.contains("cell key   no\nparent     2\nchildren   refused 1: not a cell key\n"), "{page}");
    assert!(page.ends_with("\nvertices   refused 1: not a cell key\n"), "{page}");
    let page = printed(&["key", "0xffffffffffffffff"]);
    assert!(page.contains("\nchildren   refused 3: child of level 21"), "{page}");
}
