//! A host of the reducer's C function: runs the sample plan through it, prints the lines, and checks
//! them, the refusals and what a buffer that is too short gets. `sh host/build PROGRAM` builds it.

extern "C" {
    // declared for C in include/reducer.h
    fn reducer_session(
        plan: *const u8,
        plan_len: usize,
        out: *mut u8,
        out_len: usize,
        len: *mut usize,
    ) -> u32;
}

/// The most bytes that a plan may have.
const PLAN_MOST: usize = 8_192;

/// The most bytes that the lines of any plan have.
const OUT_MOST: usize = 133_120;

/// What a buffer holds before a call.
const FILL: u8 = 0xAA;

/// What the length is before a call.
const NEVER: usize = usize::MAX;

const SAMPLE: &[u8] = include_bytes!("../samples/first.plan");
const SAMPLE_LINES: &[u8] =
    b"v 5 7 4\ns 1\nv 7 4\nc 1\ns 1\ns 1\ns 1\nv 4\nc 1\nc 0\nv 5\n";

/// Runs `plan`: how many bytes of `out` its lines have, or the number of the refusal.
fn session(plan: &[u8], out: &mut [u8]) -> Result<usize, u32> {
    let mut len = NEVER;
    // SAFETY: each pointer comes from a slice of the length that goes with it, or from a local number, and
    // none of them overlap, since `out` and `len` are borrowed mutably.
    let status =
        unsafe { reducer_session(plan.as_ptr(), plan.len(), out.as_mut_ptr(), out.len(), &mut len) };
    if status == 0 {
        Ok(len)
    } else {
        assert_eq!(len, NEVER);
        Err(status)
    }
}

/// The lines are exactly `lines`, in every buffer that has room, and no buffer that lacks room is changed.
fn check(plan: &[u8], lines: &[u8]) {
    for room in [lines.len(), lines.len() + 1, OUT_MOST] {
        let mut out = vec![FILL; room];
        assert_eq!(session(plan, &mut out), Ok(lines.len()));
        let (written, rest) = out.split_at(lines.len());
        assert_eq!(written, lines);
        assert!(rest.iter().all(|&byte| byte == FILL));
    }
    let shorter = [0, lines.len() / 2, lines.len().saturating_sub(1)];
    for room in shorter.into_iter().filter(|&room| room < lines.len()) {
        let mut out = vec![FILL; room];
        assert_eq!(session(plan, &mut out), Err(7));
        assert!(out.iter().all(|&byte| byte == FILL));
    }
}

/// 1,024 views of 64 items: the plan with the longest lines.
fn longest() -> (Vec<u8>, Vec<u8>) {
    let plan = format!("low=64\nhigh=64\ndraws=0{}\nsteps={}\n", " 9".repeat(64), "v".repeat(1_024));
    let lines = format!("v{}\n", " 9".repeat(64)).repeat(1_024);
    (plan.into_bytes(), lines.into_bytes())
}

/// The sample and then spaces, one byte more than a plan may have.
fn too_long() -> Vec<u8> {
    let mut plan = SAMPLE.to_vec();
    plan.resize(PLAN_MOST + 1, b' ');
    plan
}

fn main() {
    check(SAMPLE, SAMPLE_LINES);
    check(b"", b"refused 10 1\n");
    check(b"low=2\nhigh=1\ndraws=\nsteps=x\n", b"refused 10 4\n");
    check(b"low=2\nhigh=1\ndraws=\nsteps=\n", b"refused 1\n");
    check(b"low=1\nhigh=3\ndraws=2 5\nsteps=v\n", b"refused 5\n");
    check(b"low=1\nhigh=3\ndraws=2 5 7 4\nsteps=\n", b"");
    check(&too_long(), b"refused 10 1\n");

    let (plan, lines) = longest();
    assert_eq!(lines.len(), OUT_MOST);
    let mut out = vec![FILL; OUT_MOST];
    assert_eq!(session(&plan, &mut out), Ok(OUT_MOST));
    assert!(out == lines);
    let mut short = vec![FILL; OUT_MOST - 1];
    assert_eq!(session(&plan, &mut short), Err(7));
    assert!(short.iter().all(|&byte| byte == FILL));

    let len = session(SAMPLE, &mut out).expect("the sample plan fits");
    print!("{}", String::from_utf8_lossy(&out[..len]));
    println!("host: the C function agrees");
}
