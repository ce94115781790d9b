#!/bin/sh
# Counts, from the top of the repository, the places at which the code may be plainer in today's forms; with -v it prints them.
# Each count is of lines in crates/*/src, so that it can be made again at any commit.
sources=$(ls crates/*/src/*.rt)
count() {
    echo "$1: $(eval "$2" | wc -l)"
    if [ "$verbose" ]; then eval "$2"; fi
}
if [ "$1" = -v ]; then verbose=yes; fi
count '1 own enums' 'grep -nE "^ *(pub(\(crate\))? )?enum " $sources'
count '1 errors and absences passed on by a match' 'grep -nE "(Err\([a-z_]+\)|None) => (return )?(Err|None)|(Ok\((_|\(\))\)|None|Some\(_\)) => (\{\}|return Err)|Err\([a-z_]+\) => \{$|^ *None => " $sources'
count '1 numbers as answers' 'grep -nE "fn [a-z_]+\(.*\) -> u8" $sources'
count '1 flags as answers' 'grep -nE "\) -> (bool|io::Result<bool>)" $sources'
count '3 loops over a range, and loops with a condition' 'grep -nE "for [a-z_]+ in [^{[]*\.\.[^}]|while " $sources'
count '4 casts' 'grep -nE " as (u8|u16|u32|u64|usize)" $sources'
count '4 orders and equalities by fields' 'grep -nE "\.[a-z0-9_]+ (<|==|!=) [a-z]+\.?[a-z0-9_]* (&&|\|\|) " $sources'
count '4 bytes of a text written one part at a time' 'grep -nE "self\.(word|figure|letter|byte)\((b[\"'"'"']|[a-z0-9_ +%()]*\[?)" crates/report/src/*.rt'
count '5 facts that three or more contracts repeat' 'grep -hoE "(requires|ensures)[ a-z]*\{ .*" $sources | sed -E "s/^(requires|ensures)( [a-z]+)? //" | sort | uniq -c | awk "\$1 > 2"'
count '5 capacity and entries side by side' 'grep -nE "capacity: u16, *(entries: &\[Entry\]|e: Entry)" $sources; grep -nA1 "^    capacity: u16,$" $sources | grep "entries: &"'
count '6 arrays of a fixed length' 'grep -nE "\[[A-Za-z0-9_() :]+; *[0-9A-Z_]+\]" $sources'
count '7 switches on words or letters' 'grep -nE "^ *(\(?\"[a-zA-Z ]+\"|'"'"'[A-Z]'"'"')" $sources'
count '8 answers' 'grep -rhE "^pub [a-z_A-Z0-9+-]+ : goal\." crates/*/proofs --include=Answers.antt'
