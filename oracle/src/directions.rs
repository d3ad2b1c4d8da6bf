//! `directions` prints what the 16 directions of `hemisphere_closure` are made of, each number as
//! the bits of a float: the tables of the port, and the run that they come from.

use interflect::trace::open::direction;

fn main() {
    println!(" k      phi      cos      sin       u1        r    r·cos    r·sin   √(1-u1)");
    for k in 0..16 {
        let d = direction(k);
        let [x, y, z] = d.parts;
        let words =
            [d.phi, d.cos, d.sin, d.u1, d.r, x, y, z].map(|x| format!("{:08X}", x.to_bits()));
        println!("{k:2} {}", words.join(" "));
    }
}
