#!/bin/sh
# Counts the places of docs/DESIGN-PASS.md in src/ at a commit: tools/design_places.sh COMMIT
c=${1:-HEAD}
lines() { git grep -hE "$1" "$c" -- 'crates/*/src/*.rt' | wc -l | tr -d ' '; }
echo "1  own enums of the shape of Option or Result    $(lines '^ +(Refused\(u8\)|Wrong),$')"
echo "1  constants that number refusals or kinds       $(lines '^(pub )?const [A-Z_]+: (u8|u32|usize) = ([0-9]|1[0-7]);$')"
echo "1  flags with a value beside them                $(lines '^ +pub found: (bool|u32),')"
echo "1  functions that answer a refusal's number      $(lines 'ensures \{ refusal_of result' | tr -d ' ')  (u8: $(git grep -hE -A1 'fn [a-z]+_refusal\(' "$c" -- 'crates/*/src/*.rt' | grep -cE -- '-> u8'))"
echo "2  functions for one room, one size or one kind  $(lines 'fn ((tiny|small|middle|large)_(queue|edges|marks)|(join|split)_(tiny|small|middle|large)|(number|put)[248]|(whole|part)_byte|clear|put_(levels|blocks|width|count)|(membership|lookup|bound|ranked|key_written|written|posting|step_answer))\b')"
echo "3  loops by while or loop                        $(lines '^ *(while |loop \{)')"
echo "3  loops by for                                  $(lines '^ *for ')"
echo "4  conversions and choices by hand               $(lines 'fn (wide|lesser|longer|either|weight_at|numbers_of|offsets_of|state_of|state_code|is_flag|has_edge)\b')  and  $(lines '\{ 1 \} else \{ 0 \}')"
echo "5  clauses with Tallies or Places of a table     $(lines '(Tallies|Places) [a-z]+\.now')"
echo "5  clauses with Opens of bytes and numbers       $(lines '(requires|ensures).*Opens [a-z]+\.now')"
echo "5  clauses with Holds of width, bits and bytes   $(lines 'Holds [a-z]+ [a-z]+ [a-z]+\.now')"
echo "5  clauses with Spreads, Parted, Runs or Edged   $(lines '(requires|ensures).*(Spreads|Parted|Runs|Edged|TablesLent|EdgedLent) [a-z]+\.now')"
echo "6  bytes with width and bits beside them         $(lines '^ +b?a: &\[u8\],$|\(m: usize, a: &\[u8\], ba: usize')"
echo "6  batches with their numbers beside them        $(lines 'batch: &\[u8\]')"
echo "7  empty slices for no tables                    $(lines '&\[\], &\[\]')"
echo "8  proofs that walk the code                     $(git ls-tree -r --name-only "$c" | grep -c 'proofs/.*Proof\.antt$')"
