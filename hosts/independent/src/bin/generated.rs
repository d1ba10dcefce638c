//! `generated FOLDER COUNT [LARGEST]`: writes to a folder the inputs of the seeds 0 to COUNT - 1, as SEED.wkb, and so many
//! of the largest sheets, of each kind in turn, as largest-PLACE.wkb; and beside each a blob of it, as .gpb, those of the largest
//! with a header as it should be.

use independent::generate::{extreme, generate, in_blob, in_sound_blob};
use std::path::PathBuf;

fn main() {
    let usage = "usage: generated FOLDER COUNT [LARGEST]";
    let words: Vec<String> = std::env::args().skip(1).collect();
    let [folder, counts @ ..] = &words[..] else { panic!("{usage}") };
    let counts: Vec<u64> = counts.iter().map(|word| word.parse().expect(usage)).collect();
    let (count, largest) = match counts[..] {
        [count] => (count, 0),
        [count, largest] => (count, largest),
        _ => panic!("{usage}"),
    };
    let folder = PathBuf::from(folder);
    std::fs::create_dir_all(&folder).expect("the folder can be made");
    let write = |name: String, bytes| std::fs::write(folder.join(name), bytes).expect("the file can be written");
    for seed in 0..count {
        let sheet = generate(seed);
        write(format!("{seed:06}.gpb"), in_blob(seed, &sheet));
        write(format!("{seed:06}.wkb"), sheet);
    }
    for place in 0..largest {
        let sheet = extreme(place);
        write(format!("largest-{place:02}.gpb"), in_sound_blob(place, &sheet));
        write(format!("largest-{place:02}.wkb"), sheet);
    }
}
