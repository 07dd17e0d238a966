//! Input that is meant to take a program very long, much memory, or by surprise.

use crate::case::Case;
use crate::cases_compile::lay;
use crate::device::{complete, Device};
use crate::drive::Program;
use crate::random::Random;
use crate::write::{random_gate, random_text, Shape};

/// The device and the layout of one qubit.
const ONE_PLACE: &str = "\ndevice 1\nlay 0\n";

/// All cases; those with a row to begin from only if `with_state` says so.
pub fn cases(random: &mut Random, with_state: bool) -> Vec<Case> {
    let mut cases = Vec::new();
    for text in nested().into_iter().chain(many_signs()).chain(long_signs()) {
        cases.push(Case::job([text.as_slice(), ONE_PLACE.as_bytes()].concat()));
        cases.push(Case::pair(text.clone(), "flip 0;"));
        cases.push(Case::pair("flip 0;", text));
    }
    cases.extend(large_devices(random));
    cases.extend(large_pairs(random));
    cases.extend(strange_jobs());
    cases.extend(arguments());
    if with_state {
        cases.extend(large_states(random));
    }
    cases
}

/// Text in so many nested pairs of braces.
fn braces(opening: &str, many: usize, inside: &str) -> String {
    format!("{}{inside}{}", opening.repeat(many), "}".repeat(many))
}

/// Nested repetition and undoing, of something and of nothing.
fn nested() -> Vec<Vec<u8>> {
    let deep = braces("255 times {", 900, "mix 0;");
    let empty = braces("255 times {", 900, "");
    let calling = |inside: &str| {
        let more = |block: usize| {
            let on = format!("call {} on 0; ", block - 1);
            format!("block {block} of 1 {{ {on}{on}}}\n")
        };
        format!(
            "block 0 of 1 {{ {inside} }}\n{}",
            (1..200).map(more).collect::<String>()
        )
    };
    let texts = [
        format!("block 0 of 1 {{ {deep} }} flip 0;"),
        format!("block 0 of 1 {{ {deep} }} flip 0; call 0 on 0;"),
        format!("block 0 of 1 {{ {deep} }} flip 0; 0 times {{ call 0 on 0; }}"),
        format!("flip 0; 0 times {{ {deep} }}"),
        format!("flip 0; {deep}"),
        format!("flip 0; {empty}"),
        format!("block 0 of 1 {{ {empty} }} flip 0; 255 times {{ call 0 on 0; }}"),
        calling("flip 0;") + "flip 0;",
        calling("flip 0;") + "flip 0; call 199 on 0;",
        calling("flip 0;") + "flip 0; call 8 on 0;",
        calling("") + "flip 0; 255 times { call 199 on 0; }",
        braces("undo {", 1000, "turn 1 of 0;"),
        braces("1 times {", 1000, "flip 0;"),
    ];
    texts.map(String::into_bytes).into()
}

/// As many signs as there may be, and more.
fn many_signs() -> Vec<Vec<u8>> {
    let blocks = |many: usize| -> String {
        let block = |number| format!("block {number} of 0 {{ }} ");
        (0..many).map(block).collect()
    };
    let texts = [
        "{".repeat(4096),
        "}".repeat(4096),
        "undo {".repeat(2048),
        "undo {".repeat(2049),
        braces("undo {", 1364, "flip 0;"),
        braces("undo {", 1365, ""),
        braces("undo {", 1365, "") + "0",
        braces("undo {", 1365, "") + ";",
        "mix 0;".repeat(1366),
        "mix 0;".repeat(1365) + "0",
        "mix 0;".repeat(257),
        "flip 0;".repeat(256),
        "flip 0;".repeat(1024),
        "flip 0;".repeat(1025),
        ";".repeat(1_000_000),
        blocks(256) + "flip 0; call 255 on ;",
        blocks(257) + "flip 0;",
    ];
    texts.map(String::into_bytes).into()
}

/// Very long signs and blanks, and bytes that are no letters.
fn long_signs() -> Vec<Vec<u8>> {
    let zeros = "0".repeat(1000);
    let blanks = " \n\t\r".repeat(1 << 20);
    let texts = [
        format!("mix {zeros};"),
        format!("turn {zeros}3 of {zeros};"),
        format!("mix {}; flip 0;", "9".repeat(1000)),
        format!("mix 1{zeros};"),
        "a".repeat(1_000_000),
        format!("{blanks}flip{blanks}0;{blanks}"),
        format!("{blanks}flip{blanks}0{blanks}"),
    ];
    let mut all: Vec<Vec<u8>> = texts.map(String::into_bytes).into();
    all.push((128..=255).collect());
    all.push(b"flip 0; \x00 mix 0;".to_vec());
    all.push(b"flip 0; \xc3\xa9".to_vec());
    all.push(b"\xef\xbb\xbfflip 0;".to_vec());
    all.push(Vec::new());
    all
}

/// The most gates across the largest devices, tidied and plain.
fn large_devices(random: &mut Random) -> Vec<Case> {
    let line = Device {
        places: 16,
        wires: (1..16).map(|place| (place - 1, place)).collect(),
    };
    let full = Device {
        places: 16,
        wires: complete(16),
    };
    let shape = Shape {
        qubits: 16,
        statements: 200,
        gates: 256,
        mixes: 6,
    };
    let texts = [
        "255 times { flip 15 if 0 8; } flip 0 if 8 15;\n".to_owned(),
        "128 times { flip 15 if 0 8; flip 0 if 15 7; }\n".to_owned(),
        "128 times { flip 15 if 0; flip 0 if 15; }\n".to_owned(),
        "51 times { mix 15; turn 1 of 15; flip 15 if 0; mix 0; flip 0 if 14 1; }\n".to_owned(),
        "255 times { mix 15; }\n".to_owned(),
        random_text(random, shape).0 + "turn 1 of 15;\n",
    ];
    let everywhere = lay(&(0..16).collect::<Vec<u8>>());
    let mut cases = Vec::new();
    for text in &texts {
        for (device, plain) in [(&line, false), (&line, true), (&full, false), (&full, true)] {
            let job = format!("{text}{}{everywhere}", device.lines()).into_bytes();
            cases.push(Case::Compile { plain, job });
        }
    }
    let again = "joined 0 1\n".repeat(100_000);
    cases.push(Case::job(format!(
        "flip 1 if 0;\ndevice 2\n{again}lay 0 1\n"
    )));
    cases
}

/// The most qubits, gates and Hadamards to be compared.
fn large_pairs(random: &mut Random) -> Vec<Case> {
    let mixes = "3 times { mix 0; mix 1; mix 2; mix 3; mix 4; mix 5; mix 6; mix 7; }";
    let toffolis = "248 times { flip 7 if 0 1; flip 3 if 5 6; flip 1 if 2 4; turn 1 of 7; }";
    let full = format!("{mixes}{toffolis} 8 times {{ turn 1 of 0; }}");
    let gate = |_| random_gate(random, 8).to_string();
    let some: String = (0..800)
        .map(gate)
        .filter(|gate| !gate.starts_with("mix"))
        .collect();
    vec![
        Case::pair(full.clone(), full.clone()),
        Case::pair(full.clone(), format!("{full} flip 7 if 0 1;")),
        Case::pair(format!("{mixes}{some}"), format!("{mixes}{some}")),
        Case::pair("60 times { mix 7; }", "0 times { mix 7; }"),
        Case::pair("61 times { mix 7; }", "mix 8;"),
    ]
}

/// The most qubits and Hadamards to be printed.
fn large_states(random: &mut Random) -> Vec<Case> {
    let shape = Shape {
        qubits: 8,
        statements: 100,
        gates: 256,
        mixes: 60,
    };
    let mut cases: Vec<Case> = Vec::new();
    for _ in 0..5 {
        let (text, said) = random_text(random, shape);
        cases.push(Case::job(format!(
            "{text}state {}\n",
            "1".repeat(said.qubits)
        )));
    }
    for text in [
        "60 times { mix 0; }",
        "61 times { mix 0; }",
        "mix 0; 255 times { flip 0; }",
    ] {
        cases.push(Case::job(format!("{text}\nstate 0\n")));
    }
    cases.push(Case::job(format!(
        "mix 0;\nstate {}\n",
        "01".repeat(100_000)
    )));
    cases.push(Case::job("state\n"));
    cases
}

/// Jobs whose lines are strange.
fn strange_jobs() -> Vec<Case> {
    let jobs: [&[u8]; 8] = [
        b"\n",
        b"device",
        b"device 1",
        b"flip 0;\ndevice 1\nlay 0\n\xff\xfe\n",
        b"flip 0;\n\t device\t1 \r\nlay 0",
        b"flip 0; device 1\nlay 0\n",
        b"flip 0;\ndevice 1\nlay 0 0\nlay 0\n",
        b"flip 0;\ndevice 2\njoined 0 1\njoined 1 0\nlay 1\n",
    ];
    jobs.into_iter().map(Case::job).collect()
}

/// Arguments that have to be refused.
fn arguments() -> Vec<Case> {
    let lists: [(Program, &[&str]); 10] = [
        (Program::Compile, &["--unknown"]),
        (Program::Compile, &["no/such/file"]),
        (Program::Compile, &["/"]),
        (Program::Compile, &["/", "/"]),
        (Program::Compare, &[]),
        (Program::Compare, &["-"]),
        (Program::Compare, &["--unknown", "-", "/"]),
        (Program::Compare, &["no/such/file", "-"]),
        (Program::Compare, &["-", "/"]),
        (Program::Compare, &["/", "/", "/"]),
    ];
    let owned = |list: &[&str]| list.iter().map(|argument| (*argument).to_owned()).collect();
    let case = |(program, list)| Case::Arguments {
        program,
        arguments: owned(list),
    };
    lists.into_iter().map(case).collect()
}
