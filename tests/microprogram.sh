# docs/MICROPROGRAM.md is the published microprogram: each of the words 0 to 52 has one line, its mnemonics, assembled here, give the line's
# bits, and name and bits are those of the table in crates/published. The words after them are word 3 again.
page=docs/MICROPROGRAM.md table=crates/published/src/lib.rt
awk -v page="$page" '
function codes(list, into,    i, n, names) { n = split(list, names, " "); for (i = 1; i <= n; i++) into[names[i]] = i - 1 }
function arguments(text, into) { gsub(/^[A-Za-z_]+\(|\)$/, "", text); return split(text, into, ", ") }
function known(name, set) { if (!(name in set)) { problem = problem " unknown " name; return 0 } return set[name] }
BEGIN {
    codes("reg_file ssp psw ir pc pcj noreg", target); codes("shl shr asr nsh", shifter)
    codes("reg_file reg_dest ssp psw C255 pc", a); a["noreg"] = 5; a["mbr"] = 5
    codes("add addc inc sub subc dec band bxor bor bnot nop", alu)
    codes("reg_file ivec ir", b); b["noreg"] = 2
    special["noreg"] = 0; special["mar"] = 4; special["mbr"] = 2; special["mar_gets_pc"] = 5
    codes("pass clr_sm set_sm", sm); codes("pass clr_ie set_ie", ie)
    carry["pass"] = 0; carry["ld_from_shifter"] = 16; carry["ld_from_alu"] = 17
    codes("pass ld_vf", v); codes("pass ld_nf", n); codes("pass ld_zf", z)
    codes("off i_ack", iack); codes("off in_fetch", ftch); codes("no_mem_op wr rd", memory)
    codes("step jmp jop jint jsm", condition)
    for (at = 0; at < 64; at++) address[at ""] = at
    address["DUMMY"] = words = 0
}
# the table: words and names in order
FILENAME != page { if ($1 ~ /^0x[0-9a-f_]+,$/) { word = toupper($1); gsub(/^0X|[_,]/, "", word); has[words] = word; named[words++] = $4 } next }
/^\| [0-9]+ \|/ {
    split($0, cell, / *\| */); lines[cell[2]]++; problem = ""
    if (cell[7] == "-") cell[7] = "Set_PSW(pass, pass, pass, pass, pass, pass)"
    if (cell[8] == "-") cell[8] = "ExtSig(off, off, no_mem_op)"
    if (arguments(cell[6], o) != 6 || arguments(cell[7], p) != 6 || arguments(cell[8], e) != 3 || arguments(cell[9], m) != 2)
        problem = " wrong number of arguments"
    high = (o[3] == "mbr") * 128 + known(o[2], shifter) * 32 + known(o[4], alu) * 2 + int(known(o[6], special) / 4)
    low = int(special[o[6]] / 2) % 2 * 2 ^ 31 + special[o[6]] % 2 * 2 ^ 30
    low += known(o[3], a) * 2 ^ 27 + known(o[5], b) * 2 ^ 25 + known(o[1], target) * 2 ^ 22
    low += known(p[1], sm) * 2 ^ 20 + known(p[2], ie) * 2 ^ 18 + known(p[3], carry) * 2 ^ 13
    low += known(p[4], v) * 2 ^ 16 + known(p[5], n) * 2 ^ 15 + known(p[6], z) * 2 ^ 14
    low += known(e[1], iack) * 2 ^ 12 + known(e[2], ftch) * 2 ^ 11 + known(e[3], memory) * 2 ^ 9
    low += known(m[1], condition) * 64 + known(m[2], address)
    bits = sprintf("%02X%04X%04X", high, int(low / 65536), low % 65536)
    if (cell[5] != bits) problem = problem " its mnemonics give " bits
    if (cell[5] != has[cell[2]]) problem = problem " the table has " has[cell[2]]
    if (cell[3] != named[cell[2]]) problem = problem " the table names it " named[cell[2]]
    if (problem == "") passed++; else { failed++; print "microprogram: word " cell[2] ":" problem }
}
END {
    for (at = 0; at < 53; at++) if (lines[at] == 1) passed++; else { failed++; print "microprogram: word " at " has " lines[at] + 0 " lines" }
    for (; at < 64; at++) if (has[at] == has[3]) passed++; else { failed++; print "microprogram: word " at " is not word 3" }
    if (words == 64) passed++; else { failed++; print "microprogram: the table has " words " words" }
    printf "%d passed, %d failed\n", passed, failed
    exit failed > 0
}' "$table" "$page"
