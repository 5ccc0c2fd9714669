// A pipe flange: a hub on a disc, a stepped bore, and six bolt holes.
$fn = 48;

difference() {
    union() {
        cylinder(h = 12, r = 60);
        cylinder(h = 40, r1 = 40, r2 = 32);
    }
    translate([0, 0, -1]) cylinder(h = 50, r = 20);
    translate([0, 0, -1]) cylinder(h = 9, r = 26);
    for (i = [0 : 5]) rotate([0, 0, 60 * i]) translate([48, 0, -1]) cylinder(h = 20, r = 5);
}
