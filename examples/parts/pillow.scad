// A pillow block: a foot with two bolt holes, and an upright with a bore and an oil hole.
$fn = 72;

difference() {
    union() {
        translate([0, 0, 15]) cube([260, 80, 30], center = true);
        translate([-60, -30, 0]) cube([120, 60, 100]);
        translate([0, 30, 100]) rotate([90, 0, 0]) cylinder(h = 60, r = 60);
    }
    translate([0, 50, 100]) rotate([90, 0, 0]) cylinder(h = 100, r = 32);
    translate([0, 20, 100]) rotate([90, 0, 0]) cylinder(h = 40, r = 42);
    for (x = [-98, 98]) {
        translate([x, 0, -1]) cylinder(h = 40, r = 11);
        translate([x, 0, 20]) cylinder(h = 40, r = 20);
    }
    translate([0, 0, 100]) cylinder(h = 80, r = 6);
}
