#!/bin/sh
# Programs that misuse a paragraph do not check: a slip that is let go, a line of a blank paragraph, a shaped one that is shaped, a paragraph that is used after it was cleared. Run by hand at the repository's top: each small crate must be refused with the words given, and the control, which uses a paragraph as it is meant, must check.
set -u
cd "$(dirname "$0")/.." || exit 1
here=$(pwd)
place=$(mktemp -d) || exit 1
trap 'rm -rf "$place"' EXIT
git clone -q "$here" "$place/repo" || exit 1
cd "$place/repo" || exit 1
echo "misuse: font gsub model paragraph shaping" >> crates.txt
failed=0

# try NAME WORDS: checks the body on standard input, and looks for the words in what the check says; with no words it must be proved.
try() {
    name=$1
    words=$2
    rm -rf crates/misuse
    mkdir -p crates/misuse/src crates/misuse/specs crates/misuse/proofs
    touch crates/misuse/specs/Lib.antt crates/misuse/proofs/Lib.antt
    {
        printf '%s\n' '#![tactic(auto)]' '' 'use font::source::FontSource;' 'use model::Glyph;' 'use paragraph::blank::Blank;' 'use paragraph::line::Line;' 'use paragraph::shaped::Shaped;' 'use shaping::shape::Inputs;' ''
        cat
    } > crates/misuse/src/lib.rt
    said=$(cd crates/misuse && rt check 2>&1)
    if [ -z "$words" ]; then
        if printf '%s\n' "$said" | tail -n 1 | grep -q '^logic=proved'; then
            echo "ok: $name checks"
        else
            echo "FAILED: $name does not check:"
            printf '%s\n' "$said" | grep -m 5 'error\|no proof'
            failed=1
        fi
    elif printf '%s' "$said" | grep -q "$words"; then
        echo "ok: $name is refused: $(printf '%s' "$said" | grep -m 1 "$words" | cut -c 1-160)"
    else
        echo "FAILED: $name is not refused by '$words':"
        printf '%s\n' "$said" | grep -m 5 'error\|no proof\|logic='
        failed=1
    fi
}

try 'the control' '' <<'RT'
// The slip comes back where it was not waived, and is the caller's then.
pub fn first_line<S: FontSource>(
    inputs: &Inputs<'_, S>,
    text: &[u32],
    run: &mut [Glyph],
    marks: &mut [u8],
) -> Option<paragraph::slip::Slip> {
    let Ok(mut shaped) = Blank::new(1).shape(inputs, text, run, marks) else {
        return None;
    };
    match shaped.line(0, 1, run, marks) {
        Ok(Line::Kept { first: _, count: _ }) => None,
        Ok(Line::Owed(slip)) => match slip.waive(&mut shaped) {
            Ok(()) => None,
            Err((slip, _)) => Some(slip),
        },
        Err(_) => None,
    }
}
RT

try 'a slip that is let go' 'linear-value-let-go\|not `Drop`' <<'RT'
pub fn let_go(shaped: &mut Shaped, run: &[Glyph], marks: &[u8]) {
    let _line = shaped.line(0, 1, run, marks);
}
RT

try 'a line of a blank paragraph' 'unknown-method' <<'RT'
pub fn line_of_blank(run: &[Glyph], marks: &[u8]) {
    let mut blank = Blank::new(1);
    let _ = blank.line(0, 1, run, marks);
}
RT

try 'a shaped paragraph that is shaped' 'unknown-method' <<'RT'
pub fn shape_twice<S: FontSource>(shaped: Shaped, inputs: &Inputs<'_, S>, text: &[u32], run: &mut [Glyph], marks: &mut [u8]) {
    let _ = shaped.shape(inputs, text, run, marks);
}
RT

try 'a paragraph that is used after it was cleared' 'moved\|use-after-move\|use of moved' <<'RT'
pub fn after_clear(shaped: Shaped) -> usize {
    let _cleared = shaped.clear();
    shaped.glyphs()
}
RT

exit $failed
