# The inputs and the texts that are too long for a file. `input-NAME` prints the input of the case NAME, and
# `answers-NAME` its text, if the case has no lines of it.

# octets OCTET COUNT: an octet COUNT times.
octets() {
  head -c "$2" /dev/zero | tr '\0' "$1"
}

# lines LINE COUNT: a line COUNT times.
lines() {
  yes "$1" | head -n "$2"
}

# words WORD COUNT: a word COUNT times, end to end.
words() {
  lines "$1" "$2" | tr -d '\n'
}

# Programs with the most instructions: jumps to the next place, and a return.
input-21-the-longest-program() {
  words 0005000000000000 4095
  printf '0006000000000007\n00100640\n'
}

input-21-one-instruction-more() {
  words 0005000000000000 4096
  printf '0006000000000007\n00100640\n'
}

# A store of word 15, and a thousand branches around another store; a read follows.
a_thousand_branches() {
  printf '000200000000000f'
  words 00450001000000010002000000000000 1000
}

input-13.05-a-thousand-branches-before-a-read() {
  a_thousand_branches
  printf '006000000000000f0016000000000000\n00100640\n'
}

input-13.06-a-thousand-branches-before-an-unwritten-read() {
  a_thousand_branches
  printf '00600000000000000016000000000000\n00100640\n'
}

input-13.07-a-line-of-70001-octets() {
  octets '#' 70001
}

input-13.08-a-line-of-70000-octets() {
  octets '#' 70000
}

input-13.09-a-source-of-1048577-octets() {
  octets '\n' 1048577
}

input-13.10-a-source-of-1048576-octets() {
  octets '\n' 1048576
}

# for_each_word DIGITS: these digits, each time followed by the number of a scratch word.
for_each_word() {
  local word
  for ((word = 0; word < 16; word++)); do
    printf '%s%08x' "$1" "$word"
  done
}

# As many branches over a store of word 3 as a program may have, a read of each word, and `ret a`.
branches_and_reads() {
  words 004d0001000000000003000000000003 2031
  for_each_word 00600000
  printf '0016000000000000\n00100640\n'
}

# `ld #7`, a store of each word, the branches, and the reads.
input-scratch-words-on-every-path() {
  printf '0000000000000007'
  for_each_word 00020000
  branches_and_reads
}

# In place of the store of word 3 there is `txa`: word 3 is stored on all paths but one.
input-a-scratch-word-that-one-path-lacks() {
  printf '0000000000000007'
  for_each_word 00020000 | sed 's/0002000000000003/0087000000000000/'
  branches_and_reads
}

input-one-instruction-more-than-those-paths() {
  printf '0087000000000000'
  input-scratch-words-on-every-path
}

input-the-longest-source-of-a-program() {
  lines 'add #1' 4095
  printf 'ret a'
}

answers-the-longest-source-of-a-program() {
  echo 'accepted 4096'
  words 0004000000000001 4095
  echo 0016000000000000
}

input-a-source-of-4097-instructions() {
  lines 'add #1' 4096
  printf 'ret a'
}

input-a-jump-over-4094-instructions() {
  echo 'ja end'
  lines neg 4094
  echo 'end: ret a'
}

answers-a-jump-over-4094-instructions() {
  echo 'accepted 4096'
  printf 0005000000000ffe
  words 0084000000000000 4094
  echo 0016000000000000
}

input-a-jump-over-4095-instructions() {
  echo 'ja end'
  lines neg 4095
  echo 'end: ret a'
}

# source_of SIZE FRONT OCTET BACK: a source of SIZE octets: one octet again and again between two texts.
source_of() {
  printf '%s' "$2"
  octets "$3" $(($1 - ${#2} - ${#4}))
  printf '%s' "$4"
}

input-a-label-up-to-the-limit-less-one() { source_of 1048575 '' a ': ret #1'; }
input-a-label-up-to-the-limit() { source_of 1048576 '' a ': ret #1'; }
input-a-label-over-the-limit() { source_of 1048577 '' a ': ret #1'; }
input-a-remark-up-to-the-limit-less-one() { source_of 1048575 'ret #1;' '#' ''; }
input-a-remark-up-to-the-limit() { source_of 1048576 'ret #1;' '#' ''; }
input-a-remark-over-the-limit() { source_of 1048577 'ret #1;' '#' ''; }
input-blanks-up-to-the-limit-less-one() { source_of 1048575 ret ' ' '#1'; }
input-blanks-up-to-the-limit() { source_of 1048576 ret ' ' '#1'; }
input-blanks-over-the-limit() { source_of 1048577 ret ' ' '#1'; }
input-a-number-up-to-the-limit-less-one() { source_of 1048575 'ret #' 0 1; }
input-a-number-up-to-the-limit() { source_of 1048576 'ret #' 0 1; }
input-a-number-over-the-limit() { source_of 1048577 'ret #' 0 1; }

# remark COUNT END: a comment of COUNT octets, and its end.
remark() {
  octets '#' "$1"
  printf '%b' "$2"
}

input-a-line-of-70000-octets-and-a-line-feed() { remark 70000 '\n'; }
input-a-line-of-70000-octets-with-a-carriage-return() { remark 69999 '\r\n'; }
input-a-carriage-return-at-the-end() { remark 69999 '\r'; }
input-a-line-of-70001-octets-and-a-line-feed() { remark 70001 '\n'; }
input-a-line-of-70001-octets-with-a-carriage-return() { remark 70000 '\r\n'; }
input-a-line-of-200000-octets() { remark 200000 '\n'; }

input-a-program-in-line-1000000() {
  octets '\n' 999999
  echo 0006000000000007
}

input-a-line-1000001() {
  input-a-program-in-line-1000000
  echo
}

# script_of COUNT: a script of COUNT lines: a card line, comments, and a cell line.
script_of() {
  echo 'card 1 1 1 1'
  lines '#' $(($1 - 2))
  echo 'cell 5 00100640'
}

input-a-script-of-1000000-lines() { script_of 1000000; }
input-a-script-of-1000001-lines() { script_of 1000001; }
input-ports-of-1000000-lines() { script_of 1000000; }
input-ports-of-1000001-lines() { script_of 1000001; }

# card_and_remark COUNT END: a script of a card line and a comment.
card_and_remark() {
  echo 'card 1 1 1 1'
  remark "$@"
}

input-ports-with-a-line-of-69999-octets() { card_and_remark 69999 '\n'; }
input-ports-with-a-line-of-70000-octets() { card_and_remark 70000 ''; }
input-ports-with-a-line-of-70001-octets() { card_and_remark 70001 ''; }
input-ports-with-a-carriage-return-too-many() { card_and_remark 70000 '\r\n'; }

input-ports-with-a-line-of-80000-octets() {
  printf 'card 1 1 1 1\nload 0006000000000001\n'
  octets '#' 80000
}

input-a-cell-over-the-limits() {
  printf '0006000000000007\n00100640\n'
  octets 0 70001
  printf '\n00100640\n'
}

input-20000-cells() {
  echo 0006000000000007
  lines 00100640 20000
}

answers-20000-cells() {
  echo 'accepted 1'
  lines 'value 7 steps 1' 20000
}

# The largest card is filled: 1024 programs and one more, 4096 connections and one more.
input-the-largest-card-is-filled() {
  echo 'card 1024 4096 16 1'
  lines 'load 0006000000000001' 1025
  printf 'setup 1 %d p1 cbr1:10/0\n' {0..4095}
  echo 'setup 2 100 p1 cbr1:10/0'
}

answers-the-largest-card-is-filled() {
  echo ready
  printf 'loaded p%d\n' {1..1024}
  echo 'fault desk 6 ProgramsFull'
  printf 'set 1/%d\n' {0..4095}
  echo 'fault desk 4 NoLine'
}

# The longest journal is filled: 65,536 cells, of which each tenth one conforms, and one more.
input-the-longest-journal-is-filled() {
  printf '%s\n' 'card 1 1 1 65536' 'load 0006000000000001' 'setup 1 100 p1 cbr1:10/0'
  printf 'cell %d 00100640\n' {0..65536}
  echo 'cut 1 100'
}

answers-the-longest-journal-is-filled() {
  printf '%s\n' ready 'loaded p1' 'set 1/100'
  # After each cell that passes, nine are discarded.
  awk 'BEGIN { for (k = 0; k < 65536; k++) print k % 10 ? "discard 1/100 p1 1" : "pass 1/100 p1 1 00100640" }'
  echo 'fault arrive 6 JournalFull'
  echo 'cut 1/100 65536 6554 0 58982 0'
}
