#!/bin/sh
# Lists the places that docs/DESIGN-PASS.md counts, point by point: tools/places.sh [TREE]. Run it in any checkout of the repository.
cd "${1:-.}" || exit 1
rt() { find crates -name '*.rt' -path '*/src/*' ! -path '*/out/*' | sort; }
list() {
    name=$1
    shift
    found=$("$@" 2>/dev/null)
    if [ -z "$found" ]; then n=0; else n=$(printf '%s\n' "$found" | wc -l); fi
    printf '== %s: %s\n' "$name" "$n"
    [ "$n" -gt 0 ] && printf '%s\n' "$found"
}
g() { rt | xargs grep -nE "$1"; }
list '1 numbers for kinds, as constants' g '^(pub )?const [A-Z_]+: u8 = [0-9]+;'
list '1 numbers for refusals, as payloads' g '^\s*Refused(At)?\(u8'
list '1 a value with its refusal beside' g 'pub refused: Option'
list '1 flags in structs' g '^\s*(pub(\([a-z]+\))? )?[a-z_]+: bool,'
list '1 sentinels, and an end told by a flag' g 'else \{ "" \}|unwrap_or\(0\)|-> Result<bool, Unreadable>'
list '1 errors passed on by hand' g '(Err\([a-z_]+\)|Some\(why\)) => (return )?Err\(|return Err\((why|stop|Stop::|Ended::)|^\s+return Err\(why\);'
list '2 one width each' g 'fn (put|get)_u(8|16|32|64)\('
list '2 a call and its step apart' g 'fn do_[a-z]+'
list '2 the same in two crates, or twice' g 'fn (unmade|override_at|show|give_up|check_entries|count_requests|close_all|close_lines)\b|struct (Made|Making)\b|^pub enum (Stop|Ended) \{|match (run|replay)\(&rt\)|Session::new\(heap'
list '3 loops' g '^\s*(for|while|loop)\b'
list '4 by hand' g 'fn (number|is_same|text|of_report|of_session|of_book|counts_for)\b|match u(8|32)::try_from|match w\.parse'
list '5 a bound on a trigger number' g '(requires|within) \{ n < 21 \}'
list '5 what a held slip can do' g '\bHolds \(view'
list '5 seven parameters of a closing' g '^\s+(chosen: Selection|done: u32),$'
list '6 a buffer with a length beside, a list searched by hand' g 'count: usize,$|\[BLANK_ENTRY; MOST_SHOWN\]|MOST_WORDS\]|fn find\b|used: usize,$'
list '7 a switch on which of three methods' g '(AnySession|MethodName)::(Converged|Offline|Qos)\b.*=>'
list '8 proof files' sh -c "find crates -name '*.antt' -path '*/proofs/*' ! -name Lib.antt | sort | xargs wc -l"
