//! Document 01's "Checked examples" K1 to K10, its "To run" cases and its listing, with values
//! written from that paper by hand; K1, K2 and K3 on the record in place, by words, by bytes and
//! beside accesses by value, and what is refused there; and one case of 24 bits over three words. A
//! line is calls, each with the number, x and y that it must answer, in hexadecimal; numbers left
//! out are 0. What the letters mean stands in calls/run.rs. Each example starts a new run.

use crate::calls::run::Run;
use crate::scripts::text::numbers;

const EXAMPLES: &str = "
: K1
N 3; M 1111 1111; W 3 3 1000; W 0 3 0
W 1 3 0 = 0 0 1
R 2 3 = 0 1111 1; R 2 3 = 0 2222 1; R 2 3 = 0 3333 2
R 0 3 = 0 30; R 1 3 = 0 0
: K2
N 3; M 1111 1111; W 3 3 1000; W 0 3 0; W 1 3 0 = 0 0 1
R 2 3 = 0 1111 1; R 2 3 = 0 2222 1; R 2 3 = 0 3333 2
R 2 3 = 0 FFFF 12
R 0 3 = 0 40
: K3
N 3; M 1111 1111; W 3 3 0800; W 0 3 0; W 1 3 0 = 0 0 1
W 2 3 AAAA = 0 0 1
R 2 3 = 0 AAAA 1; R 2 3 = 0 2222 1
R 0 3 = 0 10
T 0 10 = 0 AAAA 1
: K4
N 3; M 1111 1111; W 3 3 1000; W 0 3 FFF0; W 1 3 FFFF = 0 0 2
R 2 3 = 0 FFFF 11
R 0 3 = 0 0; R 1 3 = 0 0
R 2 3 = 0 1111 1
: K5
G 0 0 0080
W 3 1 0D; R 3 3 = 0 0D; W 3 1 F0; R 3 3 = 0 08
: K6
G 0 0 000D
Q 3 F0; P 3 = 0 F5
: K7
N 2; F E 4 A = 0 0 4
T 0 10 = 0 8000 1; T 10 10 = 0 2 1
: K8
N 2; F E 4 A = 0 0 4
T E 4 = 0 A 2; S E 4 = 0 FFFFFFFA 2
: K9
N 3; F 1 20 FFFFFFFF = 0 0 5
T 0 10 = 0 FFFE 1; T 10 10 = 0 FFFF 1; T 20 10 = 0 0001 1
: K10
A 4; A 3; A 2; A 1; A 0; B = 0 0; C
B = 0 1; B = 0 2; B = 0 3; B = 0 4; B = 8
: sizes
T 0 0 = 4; T 0 21 = 4; S 0 0 = 4; S 0 21 = 4; F 0 0 = 4; F 0 21 = 4
: two words
N 2; T 0 20 = 0 0 2; T 1 20 = 6; F 0 20 = 0 0 2; F 1 20 = 6; S 1 20 = 6
: 32,769 words
N 8001; R 3 3 = 1; W 0 3 = 1; T 0 10 = 1; S 0 10 = 1; F 0 10 = 1; I = 1; O = 1
N 8000; R 3 3 = 0 8000
: listing
W 3 3 0800; W 0 3 0000; W 1 3 0000 = 0 0 1
W 2 3 1234 = 0 0 1; R 2 3 = 0 1234 1; R 2 3 = 0 0 1
: in place
N 3; M 1111 1111; K 3 3 1000; K 0 3 0
K 1 3 0 = 0 0 1
H 2 3 = 0 1111 1; H 2 3 = 0 2222 1; H 2 3 = 0 3333 2; H 2 3 = 0 FFFF 12
H 0 3 = 0 40; H 1 3 = 0 0
: in place by bytes
N 3; M 1111 1111; K 3 2 1000; K 0 1 0; K 0 2 0; K 1 1 0
K 1 2 0 = 0 0 1
H 2 1 = 0 11; H 2 2 = 0 1100 1; H 2 1 = 0 22; H 2 2 = 0 2200 1
H 0 1 = 0 20
: in place and by value
N 3; M 1111 1111; W 3 3 0800; K 0 3 0; W 1 3 0 = 0 0 1
K 2 3 AAAA = 0 0 1
R 2 3 = 0 AAAA 1; H 2 3 = 0 2222 1
R 0 3 = 0 10; H 0 3 = 0 10
: refused in place
N 8001; H 3 3 = 1; K 0 3 1234 = 1
N 1; H 4 3 = 2; K 4 3 1234 = 2; H 3 0 = 3; K 0 4 1234 = 3
R 0 3 = 0 0; R 1 3 = 0 0; R 3 3 = 0 8000; R 2 3 = 0 0 11
: third word
N 3; F F 18 FFFFFFFF = 0 0 5
T 0 10 = 0 8000 1; T 10 10 = 0 FFFF 1; T 20 10 = 0 007F 1
";

/// Whether one call answers as written.
fn holds(run: &mut Run, step: &str) -> bool {
    let (call, wanted) = step.split_once('=').unwrap_or((step, ""));
    let call = call.trim();
    let (Some(given), Some(wanted)) = (numbers(&call[1..]), numbers::<3>(wanted)) else {
        return false;
    };
    match run.call(call.as_bytes()[0], given) {
        Some((number, x, y)) => [u32::from(number), x, y] == wanted,
        None => false,
    }
}

/// How many hold, or the name of the first that doesn't.
pub fn run() -> Result<usize, &'static str> {
    let mut count = 0;
    for example in EXAMPLES.split(':').skip(1) {
        let (name, steps) = example.split_once('\n').unwrap_or((example, ""));
        let mut run = Run::new();
        let mut steps = steps
            .split(['\n', ';'])
            .filter(|step| !step.trim().is_empty());
        if !steps.all(|step| holds(&mut run, step)) {
            return Err(name.trim());
        }
        count += 1;
    }
    Ok(count)
}
